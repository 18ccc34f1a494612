//! Stubs of what the source leans on. The enums' and bitmaps' numbers are those of the
//! public text; the rest has only the shape that the source asks for.

pub mod error {
    #[derive(Clone, Copy, Debug, PartialEq, Eq)]
    pub enum ErrorCode {
        ConstraintError,
        InvalidCommand,
        Failure,
    }

    #[derive(Clone, Copy, Debug, PartialEq, Eq)]
    pub struct Error(pub ErrorCode);

    impl From<ErrorCode> for Error {
        fn from(code: ErrorCode) -> Self {
            Error(code)
        }
    }
}

pub mod tlv {
    use core::marker::PhantomData;

    use crate::error::Error;

    pub use oracle_derive::{FromTLV, ToTLV};

    pub trait FromTLV {}
    impl<T: ?Sized> FromTLV for T {}

    pub trait ToTLV {}
    impl<T: ?Sized> ToTLV for T {}

    pub trait TLVBuilderParent {}
    impl<T: ?Sized> TLVBuilderParent for T {}

    pub struct TLVArray<'a, T>(PhantomData<(&'a (), T)>);

    impl<'a, T> TLVArray<'a, T> {
        pub fn iter(&self) -> impl Iterator<Item = Result<T, Error>> {
            core::iter::empty()
        }
    }

    #[derive(Clone, Debug, PartialEq, Eq)]
    pub struct Nullable<T>(Option<T>);

    impl<T> Nullable<T> {
        pub fn none() -> Self {
            Nullable(None)
        }
        pub fn into_option(self) -> Option<T> {
            self.0
        }
    }

    impl<T> From<Option<T>> for Nullable<T> {
        fn from(x: Option<T>) -> Self {
            Nullable(x)
        }
    }
}

pub mod persist {
    use crate::error::Error;

    pub trait KvBlobStoreAccess {}
    impl KvBlobStoreAccess for () {}

    pub struct Persist<K>(K);

    impl<K: KvBlobStoreAccess> Persist<K> {
        pub fn new(kv: K) -> Self {
            Persist(kv)
        }
        pub fn load_tlv<T>(&mut self, _key: u16) -> Result<Option<T>, Error> {
            Ok(None)
        }
        pub fn store_tlv<T>(&mut self, _key: u16, _value: T) -> Result<(), Error> {
            Ok(())
        }
        pub fn remove(&mut self, _key: u16) -> Result<(), Error> {
            Ok(())
        }
    }
}

pub mod utils {
    pub mod cell {
        pub use core::cell::RefCell;
    }

    pub mod futures {
        use core::future::{pending, Future};

        pub enum Either<A, B> {
            First(A),
            Second(B),
        }
        pub enum Either3<A, B, C> {
            First(A),
            Second(B),
            Third(C),
        }
        pub enum Either4<A, B, C, D> {
            First(A),
            Second(B),
            Third(C),
            Fourth(D),
        }

        // The dispatcher is not run here.
        pub async fn select<A: Future, B: Future>(_: A, _: B) -> Either<A::Output, B::Output> {
            pending().await
        }
        pub async fn select3<A: Future, B: Future, C: Future>(
            _: A,
            _: B,
            _: C,
        ) -> Either3<A::Output, B::Output, C::Output> {
            pending().await
        }
        pub async fn select4<A: Future, B: Future, C: Future, D: Future>(
            _: A,
            _: B,
            _: C,
            _: D,
        ) -> Either4<A::Output, B::Output, C::Output, D::Output> {
            pending().await
        }
    }

    pub mod sync {
        use core::cell::RefCell;
        use core::future::pending;

        use crate::recorder;

        pub trait MaybeSend {}
        impl<T: ?Sized> MaybeSend for T {}
        pub trait MaybeSendSync {}
        impl<T: ?Sized> MaybeSendSync for T {}

        pub mod blocking {
            pub struct Mutex<T>(T);

            impl<T> Mutex<T> {
                pub const fn new(x: T) -> Self {
                    Mutex(x)
                }
                pub fn lock<R>(&self, f: impl FnOnce(&T) -> R) -> R {
                    f(&self.0)
                }
            }
        }

        /// Each task that is signalled is a notice; the last one is kept.
        pub struct Signal<T>(RefCell<T>);

        impl<T> Signal<T> {
            pub const fn new(x: T) -> Self {
                Signal(RefCell::new(x))
            }
        }

        impl<T> Signal<Option<T>> {
            pub fn signal(&self, x: T) {
                recorder::notice(recorder::TASK);
                *self.0.borrow_mut() = Some(x);
            }
            pub fn take(&self) -> Option<T> {
                self.0.borrow_mut().take()
            }
            pub async fn wait_signalled(&self) -> T {
                pending().await
            }
        }

        /// Used by `deferred_persist.rs` alone: `mark_dirty` notifies it.
        pub struct Notification;

        impl Notification {
            pub const fn new() -> Self {
                Notification
            }
            pub fn notify(&self) {
                recorder::notice(recorder::DIRTY);
            }
            pub async fn wait(&self) {
                pending().await
            }
        }
    }

    pub mod timers {
        use core::future::Future;
        use core::ops::Sub;
        use core::pin::Pin;
        use core::task::{Context, Poll};

        use crate::recorder;

        /// Whole milliseconds.
        #[derive(Clone, Copy, Debug, PartialEq, Eq, PartialOrd, Ord)]
        pub struct Duration(u64);

        impl Duration {
            pub const fn from_millis(ms: u64) -> Self {
                Duration(ms)
            }
            pub const fn from_secs(s: u64) -> Self {
                Duration(s * 1000)
            }
            pub const fn as_millis(&self) -> u64 {
                self.0
            }
        }

        /// Whole milliseconds of the clock that is set by hand.
        #[derive(Clone, Copy, Debug, PartialEq, Eq, PartialOrd, Ord)]
        pub struct Instant(u64);

        impl Instant {
            pub const fn from_millis(ms: u64) -> Self {
                Instant(ms)
            }
            pub const fn as_millis(&self) -> u64 {
                self.0
            }
            pub fn now() -> Self {
                Instant(recorder::clock())
            }
        }

        impl Sub for Instant {
            type Output = Duration;
            fn sub(self, other: Instant) -> Duration {
                Duration(
                    self.0
                        .checked_sub(other.0)
                        .expect("an instant after the clock"),
                )
            }
        }

        /// Pending once; its wait is recorded.
        pub struct Timer(bool);

        impl Timer {
            pub fn after(wait: Duration) -> Self {
                recorder::set_wait(wait.as_millis());
                Timer(false)
            }
        }

        impl Future for Timer {
            type Output = ();
            fn poll(mut self: Pin<&mut Self>, _: &mut Context<'_>) -> Poll<()> {
                if self.0 {
                    return Poll::Ready(());
                }
                self.0 = true;
                Poll::Pending
            }
        }
    }
}

pub mod dm {
    use core::cell::Cell;
    use core::marker::PhantomData;

    use crate::persist::KvBlobStoreAccess;

    pub type AttrId = u32;
    pub type CmdId = u32;
    pub type ClusterId = u32;
    pub type EndptId = u16;

    pub struct Dataver(Cell<u32>);

    impl Dataver {
        pub const fn new(x: u32) -> Self {
            Dataver(Cell::new(x))
        }
        pub fn get(&self) -> u32 {
            self.0.get()
        }
        pub fn changed(&self) {}
    }

    #[derive(Clone, Copy)]
    pub struct Cluster<'a> {
        pub id: ClusterId,
        pub revision: u16,
        pub feature_map: u32,
        marker: PhantomData<&'a ()>,
    }

    impl<'a> Cluster<'a> {
        pub const fn new(id: ClusterId, revision: u16) -> Self {
            Cluster {
                id,
                revision,
                feature_map: 0,
                marker: PhantomData,
            }
        }
        pub const fn with_features(mut self, features: u32) -> Self {
            self.feature_map = features;
            self
        }
        pub const fn with_attrs(self, _: ()) -> Self {
            self
        }
        pub const fn with_cmds(self, _: ()) -> Self {
            self
        }
        pub fn attribute(&self, _: AttrId) -> Option<()> {
            Some(())
        }
        pub fn command(&self, _: CmdId) -> Option<()> {
            Some(())
        }
    }

    pub enum LifecycleOp {
        Startup,
        FactoryReset,
        FabricRemoval { fabric: u8 },
        FailSafeCommit,
        FailSafeExpiry,
    }

    pub trait AttrChangeNotifier {
        fn notify_attr_changed(&self, endpoint: EndptId, cluster: ClusterId, attr: AttrId);
        fn notify_cluster_changed(&self, endpoint: EndptId, cluster: ClusterId);
    }

    pub trait HandlerContext: AttrChangeNotifier {
        fn kv(&self) -> impl KvBlobStoreAccess;
    }

    pub trait InvokeContext: HandlerContext {}

    pub trait ReadContext {}

    pub trait WriteContext: HandlerContext {
        fn notify_changed(&self);
    }

    pub mod clusters {
        pub mod app {
            include!(concat!(env!("OUT_DIR"), "/app.rs"));

            pub mod level_control {
                use super::on_off::OnOffHooks;

                pub trait LevelControlHooks {}

                pub struct NoOnOff;
                impl OnOffHooks for NoOnOff {}
            }

            pub mod on_off {
                use core::marker::PhantomData;

                use super::level_control::LevelControlHooks;
                use crate::recorder;

                pub trait OnOffHooks {}

                pub struct NoLevelControl;
                impl LevelControlHooks for NoLevelControl {}

                pub struct OnOffHandler<'a, H, LH>(PhantomData<(&'a (), H, LH)>);

                impl<'a, H: OnOffHooks, LH: LevelControlHooks> OnOffHandler<'a, H, LH> {
                    pub const fn new() -> Self {
                        OnOffHandler(PhantomData)
                    }
                    /// On or off is an input of each command.
                    pub fn on_off(&self) -> bool {
                        recorder::on()
                    }
                }
            }
        }

        pub mod scenes {
            use crate::dm::clusters::decl::scenes_management::*;
            use crate::dm::{AttrId, ClusterId, EndptId, HandlerContext};
            use crate::error::Error;
            use crate::tlv::{TLVArray, TLVBuilderParent};

            pub trait SceneInvalidator {
                fn scenable_attribute_changed(&self, endpoint: EndptId);
            }

            pub trait AttributeValuePairPush: Sized {
                fn push_u8(self, attr: AttrId, x: u8) -> Result<Self, Error>;
                fn push_u16(self, attr: AttrId, x: u16) -> Result<Self, Error>;
            }

            impl<P> AttributeValuePairPush for AttributeValuePairStructArrayBuilder<P> {
                fn push_u8(self, _: AttrId, _: u8) -> Result<Self, Error> {
                    Ok(self)
                }
                fn push_u16(self, _: AttrId, _: u16) -> Result<Self, Error> {
                    Ok(self)
                }
            }

            pub trait SceneClusterHandler {
                const CLUSTER_ID: ClusterId;
                fn endpoint_id(&self) -> EndptId;
                fn is_scenable_attribute(attribute_id: AttrId) -> bool;
                fn capture<P: TLVBuilderParent>(
                    &self,
                    avp_array: AttributeValuePairStructArrayBuilder<P>,
                ) -> Result<AttributeValuePairStructArrayBuilder<P>, Error>;
                async fn apply<C: HandlerContext>(
                    &self,
                    ctx: &C,
                    avp_list: &TLVArray<'_, AttributeValuePairStruct<'_>>,
                    transition_time_ms: u32,
                ) -> Result<(), Error>;
            }
        }

        pub mod decl {
            pub mod scenes_management {
                use core::marker::PhantomData;

                use crate::dm::AttrId;
                use crate::error::Error;

                pub struct AttributeValuePairStruct<'a>(PhantomData<&'a ()>);

                impl AttributeValuePairStruct<'_> {
                    pub fn attribute_id(&self) -> Result<AttrId, Error> {
                        Ok(0)
                    }
                    pub fn value_unsigned_8(&self) -> Result<Option<u8>, Error> {
                        Ok(None)
                    }
                    pub fn value_unsigned_16(&self) -> Result<Option<u16>, Error> {
                        Ok(None)
                    }
                }

                pub struct AttributeValuePairStructArrayBuilder<P>(PhantomData<P>);
            }

            pub use crate::color_control_decl as color_control;
        }
    }
}
