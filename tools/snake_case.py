#!/usr/bin/env python3
"""Turns this repository's own definitions, lemmas, fields and constructors from camel case to snake case, which the present Rattle's port.py
leaves as they are: usage: snake_case.py, once, at the top of a tree that port.py has turned. It turns whole words of .antt, .rt and .edit files in crates/;
docs/PORT.md says where it was used. Functions of src/, what C sees, strings, inputs and outputs had no such names."""

import os
import re

WORD = re.compile(r"[A-Za-z_][A-Za-z0-9_'-]*")

NAMES = """
acceptedOutcome acceptedStep actedBy actionTable activateFrom addedAll afterClock afterCommand afterMaking afterRow
afterStop aimTies allNumbers allTrue allValid amongOthers answerAdded answerText answerWords answeredAt
answeredPlace answersOn anyLater asRequest askedBy askedByWords atClock atEnd atTheEnd badClock badLineText beginAt
begunOn bitText bothHalf boundsAt busyCommands busyTransitions byName byNext byOne byteField bytesOf bytesRead
bytesTaken callKnown callLine calledAt caseNumbered causeIf changeNotices changeOf changeReported clampedSum
clockLimit clockOf clockRefused colorAt colorLoop colorLoopActive colorLoopAt colorLoopDirection colorLoopNumbers
colorLoopOf colorLoopSet colorLoopSetAt colorLoopStartEnhancedHue colorLoopStoredEnhancedHue colorLoopTime
colorModeAt colorModeCase colorModeFound colorModeHas colorModeKnown colorModeNumber colorModeOf colorModeRead
colorModeTable colorModes colorOf colorSet colorTemperature colorValid colorWords commandAccepted commandAnswer
commandAt commandCall commandCause commandDone commandEffect commandFits commandKnown commandNumbers commandOf
constraintError countAt crossedBounds currentHue currentHueAskedAt currentHueBand currentHueText decimalIn
decimalIn-enough decimalIn-short decimalText defaultColorLoopDirection defaultColorLoopStartEnhancedHue
defaultColorLoopStoredEnhancedHue defaultColorLoopTime defaultColorMode defaultColorModeNumber
defaultColorTemperatureMireds defaultCurrentHue defaultCurrentSaturation defaultRemainingTime deltaAskedAt deltaAt
deltaAtRate deltaFrom deltaGiven deltaOf deltaSign deltaSize deltaText deltaValid deltaWay deviceHueSaturation
deviceMireds digitsAlone directionAt directionCase directionFound directionHas directionKnown directionNumber
directionRead directionTable downAndTo editedAt editedOn endWait enhancedCircle enhancedColorModeFound
enhancedColorModeNumber enhancedColorModeTable enhancedColorModes enhancedCommand enhancedCurrentHue enhancedHue
enhancedHueMaximum enhancedHueModes enhancedModeAt enhancedModeCase enhancedModeHas enhancedModeKnown
enhancedModeRead enhancedMoveHue enhancedMoveHueAt enhancedMoveToHue enhancedMoveToHueAt enhancedNext
enhancedStepHue enhancedStepHueAt equalHues everyCall executeIfOff executeIfOffBit fadeOf fadeText fadeWithin
fieldMaximum fieldMinimum fieldsGood fiftyApart findFrom firstCause firstStored fiveLeft flagNumber flagRead
flagRows followedBy foundIn foundWith freshLamp freshPlace freshWords fromPlace fromZero fullWritten gaveWith
givenBy givenModes givenNumbers givenText givesOff givingHue givingWith goesOn goneOf haltAnswer haltAt hasFlag
hexDigit hexText hexValue hueAndSaturation hueAttribute hueBy hueChange hueCommand hueDown hueField hueIn hueLimit
hueMaximum hueMode hueModes hueMove hueMoveAt hueMoveNumbers hueMoveOf hueMoveTask hueMoveTo hueMoveValid hueMoved
hueNow huePass huePassed huePath hueReported hueSaturationMoved hueSaturationPass hueSaturationPassed
hueSaturationStart hueSeen hueSet hueSettingAt hueStamp hueStepTo hueTask hueTie hueUp idleLampAt in-range-whileOff
inBand inFront inModes inOrder inRangeCalls inRangeLamp inRun invalidCommand invalidLamp invalidMove invalidStep
invalidTask invokeAt is-nonNeg isDigit isHexDigit isHueMode isLoopSet isMoveTo isPairs isSmallLetter isStep isStop
isTie isValid isWord keptAt4 keptHueMode keptText lampAfter lampAnswer lampAt lampFits lampHidden lampKnown
lampLineAt lampMissing lampNumbers lampOf lampText lampValid lampWords lampsText lastStart lastStored leafAt
leafText leastWait leaveAskedAt leaveText leftBy leftEffect length-mapTo lentBytes lentText limitCause limitField
lineAt lineRead lineText listOf listSeen loopActionAt loopActionCase loopActionFound loopActionHas loopActionKnown
loopActionNumber loopActionRead loopActions loopCommand loopDelta loopDirectionAt loopDirectionCase
loopDirectionFound loopDirectionHas loopDirectionKnown loopDirectionNumber loopDirectionRead loopDirectionTable
loopDirections loopFlags loopMs loopPass loopPassed loopRun loopRunning loopSaid loopSet loopSettingsAt loopStart
loopStored loopTask loopTime loopTurn loopTurns loopingOf loopingWords madeValues makeAt makingAt makingCause
makingValues mapTo markedDirty mayExecute miredsAt miredsAttribute miredsBy miredsChange miredsCommand miredsDone
miredsField miredsMove miredsMoveAt miredsMoveNumbers miredsMoveOf miredsNow miredsReported miredsRun miredsSeen
miredsSet miredsSettingAt miredsStamp miredsStep miredsTask miredsTo miredsToAt miredsToNumbers miredsToOf
modeOfAskedAt modeOfText modesAgree modesOf moveColorTemperature moveColorTemperatureAt moveHue moveHueAt moveModeAt
moveModeCase moveModeFound moveModeHas moveModeKnown moveModeNumber moveModeRead moveModeTable moveModes
moveSaturation moveSaturationAt moveTo moveToAt moveToColorTemperature moveToColorTemperatureAt moveToHue
moveToHueAndSaturation moveToHueAndSaturationAt moveToHueAt moveToModes moveToNumbers moveToOf moveToSaturation
moveToSaturationAt moveToValid movedBetween movedHue movedTo50 movesTo neg-nonNeg negated-nonNeg newColor newHue
newTenths newTime nextDigit nextLine nextRow nextText nextWord noBytes noChange noDelta noHueDelta noLamp noNumber
noOptions noPlace noRoom noSaturationDelta noTime noneLeft notEmpty notNegated nothingPassed noticesText numberFrom
numberRead numberText numbersText ofCurrentHue ofEachChange ofEnhancedCurrentHue ofHue ofIdle ofMireds ofSaturation
oldNext onAgain onArc onLamp onLampAsked onLine onOff onOffAt onOffCase onOffExists onOffFalse onOffFound onOffHas
onOffKnown onOffNumber onOffRead onOffs onRow onceASecond oneText optionsAt orDash otherCommandAt otherCommands
otherLineAt otherLines outcomeOf paceKept partOf passReported passesThrough pastZero pathDelta permilleOf
physicalMaximum physicalMinimum placeAt placeCause placeRefusal placeWords plainCircle pokeLine progressOf putAt
ranAll ranWith rateValid readByte recordAt recordKnown recordLine recordNumbers recordOf recordWords redToCyan
refusedOutcome refusedText refusedWord refusesOff remainingAskedAt remainingText reportedBehind reportedText
requestOf rowAfter rowBytes rowCause rowLineAt rowLineRead rowOf rowRefusal rowStepped rowSum rowText runningOf
runningText runningValid runningWords runsHue runsLoop runsMireds runsMiredsTo runsSaturation runsTo saturationAt
saturationAttribute saturationChange saturationCommand saturationDone saturationField saturationGiven
saturationLimit saturationMaximum saturationModes saturationMove saturationMoveAt saturationMoveNumbers
saturationMoveOf saturationMoveValid saturationMoved saturationNow saturationPass saturationPassed
saturationReported saturationRun saturationSet saturationSettingAt saturationStamp saturationStep saturationTask
saturationTo saturationValid scenesNotified scheduledFrom setHue setLine setMireds setSaturation settingAnswer
settingAt settingEffect settingSet settledBy shortSlice shownAnswer shownAt shownRow signedDecimal signedRead
signedText sixteenAt sliceCause sliceText spacedAll spacedAll-short stampNext stampsAt startAnswer startCall
startCause startHue startNumbers startPermille startReports startWords startedOf startedOn startedWith stateText
statusText step-mapTo stepAfter stepAnswer stepAt stepBytes stepCause stepClocks stepColorTemperature
stepColorTemperatureAt stepDelta stepEach stepHue stepHueAt stepLimits stepModeAt stepModeCase stepModeFound
stepModeHas stepModeKnown stepModeNumber stepModeRead stepModeTable stepModes stepOn stepRow stepRowAt
stepSaturation stepSaturationAt stepTaken stepTimeField stepTo stepWhileIdle stepWith steppedWithin stepsAt
stepsMade stepsTaken stopMoveStep stopTakesEffect targetAt targetGiven targetNumber targetText taskAt taskFits
taskGiven taskKnown taskModes taskNumbers taskText taskValid taskWords temperatureModes temperaturePass
temperaturePassed temperatureStart temperatureTask temperatureToMoved temperatureToPass temperatureToPassed
temperatureToStart temporaryBit temporaryOptions tenCalls tenUp tenthsOf tenthsSeen thenRow timeField timeValid
toBoth toHue toMireds toSaturation toZero transitionTime turnMode turnWait turningBy turnsAfterStop unitDown unitUp
unreadableLamp upBetween upTo upTo-short updateAction updateDirection updateStartHue updateTime updatedBy
updatedReported value-decimalIn valueFrom visitsCause waitsKept whenTaken whereItMay whileOff wholeDelta withAnswer
withDirection withFullTime withLamps withLoop withRecord withinBounds wordField wordsAfter writtenQuietly
""".split()


def snake(name):
    """Each part between dashes that begins in lower case: a capital becomes an underscore and its small letter."""
    parts = []
    for part in name.split("-"):
        if re.match(r"[a-z]", part):
            part = re.sub(r"([a-z0-9])([A-Z])", r"\1_\2", part)
            part = re.sub(r"([A-Z])([A-Z][a-z])", r"\1_\2", part).lower()
        parts.append(part)
    return "-".join(parts)


def files():
    for folder, _, names in os.walk("crates"):
        if "out" in folder.split(os.sep):
            continue
        for name in names:
            if name.endswith((".antt", ".rt", ".edit")):
                yield os.path.join(folder, name)


def main():
    table = {name: snake(name) for name in NAMES}
    assert len(set(table.values())) == len(table)
    for path in files():
        with open(path) as f:
            text = f.read()
        turned = WORD.sub(lambda m: table.get(m[0], m[0]), text)
        if turned != text:
            with open(path, "w") as f:
                f.write(turned)


main()
