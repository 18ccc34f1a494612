//! `compare_crate SEED COUNT`: the crate `yemkruos` beside the unchanged Rust, in one process. The corners first, then
//! random calls until there are COUNT. A call is read once, and both sides take it and answer it as data.

use std::collections::BTreeMap;
use std::time::Instant;

use crate_side::Theirs;
use oracle_lib::data::Task;
use oracle_lib::maker::{Maker, Said, Stage};
use oracle_lib::protocol::{self, Call, End, LONGEST, read};
use oracle_lib::random::Random;
use oracle_lib::recorder;
use yemkruos::{Answer, matter};

/// The crate reads no lines, so these are passed over.
const NO_CALL: &str = "(lines that are no calls, not compared)";

struct Both {
    rust: protocol::Player,
    ours: crate_side::Player,
    lines: u64,
    gave: bool,
    /// The calls since the last lamp, one on a line.
    story: Vec<u8>,
    counts: BTreeMap<&'static str, u64>,
}

impl Both {
    fn new() -> Self {
        Both {
            rust: protocol::Player::new(),
            ours: crate_side::Player::default(),
            lines: 0,
            gave: false,
            story: Vec::new(),
            counts: BTreeMap::new(),
        }
    }

    /// How many calls both sides have answered.
    fn compared(&self) -> u64 {
        self.lines - self.counts.get(NO_CALL).unwrap_or(&0)
    }

    fn tell(&mut self, line: &[u8], call: &Call) {
        if matches!(call, Call::Lamp(_) | Call::New(..)) || self.story.len() > 1 << 16 {
            self.story.clear();
        }
        self.story.extend_from_slice(line);
        self.story.push(b'\n');
    }

    /// Whether both sides gave the same answer, and are left in the same state.
    fn agree(&self, theirs: &protocol::Reply, ours: &crate_side::Reply) -> bool {
        use crate_side::Reply as Ours;
        use protocol::Reply as Theirs;
        match (theirs, ours) {
            (Theirs::Delta(x, t), Ours::Delta(y)) => *x == y.delta && *t == y.is_tie,
            (Theirs::Remaining(x, m), Ours::Remaining(y, n)) => x == y && m == n,
            (Theirs::Leave(x), Ours::Leave(y)) => x == y,
            (Theirs::ModeOf(x), Ours::ModeOf(y)) => x == y,
            (Theirs::Shown(x), Ours::Shown(y)) => x == y,
            (Theirs::NotMade(x), Ours::NotMade(y)) => x == y,
            (Theirs::Error, Ours::Error) => true,
            (Theirs::OnLamp(end), Ours::OnLamp(answer)) => {
                same_answer(end, answer)
                    && self.rust.fields() == Some(&crate_side::fields(&answer.lamp))
                    && self.rust.record().map(crate_side::kept)
                        == crate_side::record(&answer.lamp.running)
            }
            _ => false,
        }
    }

    fn differs(&self, theirs: protocol::Reply, ours: crate_side::Reply) -> ! {
        println!("difference after {} calls", self.lines);
        print!("{}", String::from_utf8_lossy(&self.story));
        match theirs {
            protocol::Reply::OnLamp(End::Refused(cause)) => println!("the Rust: refused {cause}"),
            protocol::Reply::OnLamp(End::Broken) => println!("the Rust: broken"),
            protocol::Reply::OnLamp(End::Done { given, wait, .. }) => {
                let notices = recorder::with_notices(|n| n.to_vec());
                println!("the Rust: {notices:?} {given:?} wait {wait}");
            }
            _ => println!("the Rust: a leaf, or no lamp"),
        }
        println!(
            "          {:?} {:?}",
            self.rust.fields(),
            self.rust.record()
        );
        println!("the crate: {ours:?}");
        std::process::exit(1)
    }
}

fn same_answer(end: &End, answer: &Answer) -> bool {
    match *end {
        End::Refused(cause) => {
            matter::number_of(answer.verdict) == cause
                && answer.notices.iter().next().is_none()
                && answer.given_task().is_none()
                && answer.wait == 0
        }
        End::Done {
            given,
            wait,
            noticed,
        } => {
            answer.verdict.is_ok()
                && same_notices(noticed, answer)
                && given == answer.given_task().map(|t| -> Task { t.theirs() })
                && wait == answer.wait
        }
        End::Uncomparable | End::Broken => false,
    }
}

fn same_notices(noticed: bool, answer: &Answer) -> bool {
    let ours = answer.notices.iter().map(|n| n.number());
    match noticed {
        true => recorder::with_notices(|n| n.iter().map(|c| c.get()).eq(ours)),
        false => ours.count() == 0,
    }
}

/// What is counted: the call's kind, and how it ended.
fn kind(call: &Call, reply: &protocol::Reply) -> &'static str {
    use protocol::Reply;
    match (call, reply) {
        (_, Reply::Error) => "too early",
        (_, Reply::NotMade(_) | Reply::OnLamp(End::Refused(_))) => "refused",
        (Call::Command(..), _) => "commands",
        (Call::Start(..) | Call::StartLast(_), _) => "starts",
        (Call::Step(_), _) => "steps",
        (Call::Halt(_), _) => "halts",
        (Call::Bounds(..), _) => "new bounds",
        (Call::SetHue(..) | Call::SetSat(..) | Call::SetCt(..), _) => "setters",
        (Call::New(..), _) => "makings",
        (Call::Lamp(_) | Call::Poke(_) | Call::Record(_) | Call::Show, _) => "lamps put and shown",
        _ => "leaves",
    }
}

impl Stage for Both {
    fn say(&mut self, line: &[u8]) -> Said {
        let readable = !line.is_empty() && line[0] != b'#' && line.len() <= LONGEST;
        let Some(call) = readable.then(|| read(line)).flatten() else {
            self.lines += 1;
            *self.counts.entry(NO_CALL).or_default() += 1;
            return Said::Other;
        };
        let theirs = self.rust.play(call);
        if matches!(theirs, protocol::Reply::OnLamp(End::Uncomparable)) {
            return Said::Uncomparable;
        }
        self.tell(line, &call);
        let ours = self.ours.play(call);
        if !self.agree(&theirs, &ours) {
            self.differs(theirs, ours);
        }
        self.lines += 1;
        *self.counts.entry(kind(&call, &theirs)).or_default() += 1;
        self.gave = matches!(
            theirs,
            protocol::Reply::OnLamp(End::Done { given: Some(_), .. })
        );
        match theirs {
            protocol::Reply::OnLamp(End::Done { .. }) => Said::Accepted,
            _ => Said::Other,
        }
    }

    fn gave(&self) -> bool {
        self.gave
    }

    fn lines(&self) -> u64 {
        self.lines
    }

    fn player(&self) -> &protocol::Player {
        &self.rust
    }
}

fn main() {
    let args: Vec<u64> = std::env::args()
        .skip(1)
        .map_while(|a| a.parse().ok())
        .collect();
    let &[seed, count] = args.as_slice() else {
        eprintln!("compare_crate SEED COUNT");
        std::process::exit(2);
    };
    let begin = Instant::now();
    let mut maker = Maker::new(Both::new(), Random::new(seed));
    maker.aimed();
    while maker.stage.compared() < count {
        let missing = count - maker.stage.compared();
        maker.random(maker.stage.lines() + missing);
    }
    let both = maker.stage;
    for (name, n) in &both.counts {
        println!("{n:>13}  {name}");
    }
    let (compared, seconds) = (both.compared(), begin.elapsed().as_secs_f64());
    println!("{compared} calls compared in {seconds:.0} s, 0 differences");
}
