//! IEEE 1149.1: chips in a chain, with a board between their boundary-scan cells, played clock by clock.
//!
//! Written from the standard's state diagram. It knows nothing of test sets, nor of how clocks are made for them: it
//! takes any bytes of TMS and TDI.

use crate::board::Board;
use crate::chain::Chain;
use crate::responding::respond;
use crate::words::{bit, word_of};

/// The sixteen states of the TAP controller.
#[derive(Clone, Copy, Debug, PartialEq, Eq, Hash)]
pub enum State {
    TestLogicReset,
    RunTestIdle,
    SelectDrScan,
    CaptureDr,
    ShiftDr,
    Exit1Dr,
    PauseDr,
    Exit2Dr,
    UpdateDr,
    SelectIrScan,
    CaptureIr,
    ShiftIr,
    Exit1Ir,
    PauseIr,
    Exit2Ir,
    UpdateIr,
}

use State::*;

impl State {
    /// The state after a rising edge of TCK, by TMS at that edge.
    pub fn next(self, tms: bool) -> State {
        let (at_0, at_1) = match self {
            TestLogicReset => (RunTestIdle, TestLogicReset),
            RunTestIdle => (RunTestIdle, SelectDrScan),
            SelectDrScan => (CaptureDr, SelectIrScan),
            CaptureDr => (ShiftDr, Exit1Dr),
            ShiftDr => (ShiftDr, Exit1Dr),
            Exit1Dr => (PauseDr, UpdateDr),
            PauseDr => (PauseDr, Exit2Dr),
            Exit2Dr => (ShiftDr, UpdateDr),
            UpdateDr => (RunTestIdle, SelectDrScan),
            SelectIrScan => (CaptureIr, TestLogicReset),
            CaptureIr => (ShiftIr, Exit1Ir),
            ShiftIr => (ShiftIr, Exit1Ir),
            Exit1Ir => (PauseIr, UpdateIr),
            PauseIr => (PauseIr, Exit2Ir),
            Exit2Ir => (ShiftIr, UpdateIr),
            UpdateIr => (RunTestIdle, SelectDrScan),
        };
        if tms {
            at_1
        } else {
            at_0
        }
    }
}

/// A board in its chain: the cells, and the wiring state that ties driver cells to receiver cells. The calls' rows hold
/// of none of it.
#[derive(Clone, Copy, Debug)]
pub struct Wired<'a> {
    pub board: &'a Board,
    pub reaches: &'a [u64],
    pub chain: &'a Chain,
}

impl Wired<'_> {
    /// What comes to the cells' inputs, from what the cells' outputs are: to a receiver's cell what the receiver reads
    /// of what the drivers' cells drive, to all others anything.
    fn inputs(&self, outputs: &[bool], anything: &mut dyn FnMut() -> bool) -> Vec<bool> {
        let driven = word_of(self.chain.drivers.iter().map(|cell| outputs[*cell as usize]));
        let any_class = self.board.network.nets;
        let read = respond(self.board, any_class, &[driven], self.reaches, 1).expect("a wiring state")[0];
        let mut inputs: Vec<bool> = outputs.iter().map(|_| anything()).collect();
        for (r, cell) in (0..).zip(&self.chain.receivers) {
            inputs[*cell as usize] = bit(read, r);
        }
        inputs
    }
}

/// The chips of a chain, as one: TCK and TMS go to each of them, so their controllers are always in the same state, and
/// their cells stand in a row from TDI to TDO. Cell 0 is nearest TDO.
#[derive(Clone, Debug)]
pub struct Chips {
    pub state: State,
    /// Is EXTEST the instruction? It gives way to another in Test-Logic-Reset and in Update-IR. There is no instruction
    /// register here: whatever is shifted into it is taken to be another instruction. From then on the boundary-scan
    /// register is not between TDI and TDO: nothing is captured, shifted or updated in it, TDO is anything, and the
    /// chips' own logic drives the board.
    pub extest: bool,
    /// What the cells captured or were shifted.
    pub register: Vec<bool>,
    /// What their outputs took over last.
    pub outputs: Vec<bool>,
}

impl Chips {
    /// In Run-Test/Idle with EXTEST loaded. What the cells hold and drive is anything.
    pub fn idle(cells: u64, anything: &mut dyn FnMut() -> bool) -> Chips {
        let mut bits = || (0..cells).map(|_| anything()).collect();
        Chips { state: RunTestIdle, extest: true, register: bits(), outputs: bits() }
    }

    /// TDO as it stands before the rising edge. Outside Shift-DR it is off, and in Shift-IR the instruction register's.
    fn tdo(&self) -> Option<bool> {
        (self.extest && self.state == ShiftDr).then(|| self.register[0])
    }

    /// The rising edge of TCK: what the state does that it leaves, and the next state.
    fn rise(&mut self, tms: bool, tdi: bool, inputs: impl FnOnce(&[bool]) -> Vec<bool>) {
        match self.state {
            CaptureDr if self.extest => self.register = inputs(&self.outputs),
            ShiftDr if self.extest => {
                self.register.remove(0);
                self.register.push(tdi);
            }
            _ => {}
        }
        self.state = self.state.next(tms);
    }

    /// The falling edge of TCK: what the state does that was entered. True if the outputs take over the register.
    fn fall(&mut self) -> bool {
        let updates = self.extest && self.state == UpdateDr;
        match self.state {
            TestLogicReset | UpdateIr => self.extest = false,
            _ if updates => self.outputs.clone_from(&self.register),
            _ => {}
        }
        updates
    }
}

/// What is seen while bytes are played.
#[derive(Clone, Debug, Default, PartialEq, Eq)]
pub struct Played {
    /// TDO at each clock, sampled before TCK rises: a byte 0 or 1.
    pub tdo: Vec<u8>,
    /// The state after each clock.
    pub states: Vec<State>,
    /// What the outputs took over, in order.
    pub updated: Vec<Vec<bool>>,
}

/// Plays bytes on the chips, one for each clock, TMS in bit 0 and TDI in bit 1. What the standard and the board leave
/// open is asked of `anything`.
pub fn play(chips: &mut Chips, wired: Wired, bytes: &[u8], anything: &mut dyn FnMut() -> bool) -> Played {
    let mut played = Played::default();
    for byte in bytes {
        assert!(*byte < 4, "TMS and TDI have two bits");
        let (tms, tdi) = (byte & 1 == 1, byte & 2 == 2);
        let tdo = chips.tdo().unwrap_or_else(&mut *anything);
        chips.rise(tms, tdi, |outputs| wired.inputs(outputs, anything));
        if chips.fall() {
            played.updated.push(chips.outputs.clone());
        }
        played.tdo.push(u8::from(tdo));
        played.states.push(chips.state);
    }
    played
}

#[cfg(test)]
mod tests {
    use super::*;
    use crate::chain::{read_clocks, write_clocks};
    use crate::network::{each_combination, Network, AND, OR};

    const ALL: [State; 16] = [
        TestLogicReset,
        RunTestIdle,
        SelectDrScan,
        CaptureDr,
        ShiftDr,
        Exit1Dr,
        PauseDr,
        Exit2Dr,
        UpdateDr,
        SelectIrScan,
        CaptureIr,
        ShiftIr,
        Exit1Ir,
        PauseIr,
        Exit2Ir,
        UpdateIr,
    ];

    /// The states after each of these bits of TMS.
    fn walk(from: State, tms: &[u8]) -> Vec<State> {
        let mut state = from;
        let step = |bit: &u8| {
            state = state.next(*bit == 1);
            state
        };
        tms.iter().map(step).collect()
    }

    fn end(from: State, tms: &[u8]) -> State {
        *walk(from, tms).last().unwrap_or(&from)
    }

    /// Every arrow of the diagram is walked.
    #[test]
    fn the_diagram_by_hand() {
        // Down the data column, with a pause, back to the shift, and out; then the ways that skip a state.
        let column = [1, 0, 0, 0, 1, 0, 0, 1, 0, 1, 1, 0];
        let data = walk(RunTestIdle, &column);
        let states = [SelectDrScan, CaptureDr, ShiftDr, ShiftDr, Exit1Dr, PauseDr, PauseDr, Exit2Dr, ShiftDr];
        assert_eq!(data, [&states[..], &[Exit1Dr, UpdateDr, RunTestIdle]].concat());
        assert_eq!(walk(CaptureDr, &[1, 0, 1, 1, 1]), [Exit1Dr, PauseDr, Exit2Dr, UpdateDr, SelectDrScan]);
        // The same in the instruction column, which a further 1 leads to.
        let instruction = walk(SelectDrScan, &column);
        let states = [SelectIrScan, CaptureIr, ShiftIr, ShiftIr, Exit1Ir, PauseIr, PauseIr, Exit2Ir, ShiftIr];
        assert_eq!(instruction, [&states[..], &[Exit1Ir, UpdateIr, RunTestIdle]].concat());
        assert_eq!(walk(CaptureIr, &[1, 0, 1, 1, 1]), [Exit1Ir, PauseIr, Exit2Ir, UpdateIr, SelectDrScan]);
        // Reset, and out of it.
        assert_eq!(walk(SelectIrScan, &[1, 1, 0, 0]), [TestLogicReset, TestLogicReset, RunTestIdle, RunTestIdle]);
    }

    /// Five clocks with TMS 1 reset the controller wherever it is. From six states four would not do.
    #[test]
    fn five_ones_reset() {
        assert!(ALL.iter().all(|state| end(*state, &[1; 5]) == TestLogicReset));
        let not_by_four: Vec<State> = ALL.into_iter().filter(|state| end(*state, &[1; 4]) != TestLogicReset).collect();
        assert_eq!(not_by_four, [CaptureDr, ShiftDr, PauseDr, CaptureIr, ShiftIr, PauseIr]);
    }

    /// The states that stay where they are with TMS 0, and the one that does with TMS 1.
    #[test]
    fn states_that_stay() {
        let stay = |tms: bool| ALL.into_iter().filter(|state| state.next(tms) == *state).collect::<Vec<State>>();
        assert_eq!(stay(false), [RunTestIdle, ShiftDr, PauseDr, ShiftIr, PauseIr]);
        assert_eq!(stay(true), [TestLogicReset]);
    }

    /// Two nets with one receiver each, drivers in cells 0 and 1, receivers in cells 2 and 3.
    fn two_nets() -> (Board, Chain) {
        let board = Network { nets: 2, level: 1, gate: OR }.into();
        (board, Chain { cells: 4, drivers: vec![0, 1], receivers: vec![2, 3] })
    }

    /// Cells that hold and drive 0; what is open is 0.
    fn quiet(cells: u64) -> Chips {
        Chips::idle(cells, &mut || false)
    }

    /// Bits as bytes, to write them short.
    fn shown(contents: &[Vec<bool>]) -> Vec<Vec<u8>> {
        contents.iter().map(|cells| cells.iter().map(|bit| u8::from(*bit)).collect()).collect()
    }

    /// Plays these bytes on two sound nets, cells of which hold and drive 0.
    fn played_on_two_nets(bytes: &[u8]) -> (Chips, Played) {
        let ((board, chain), mut chips) = (two_nets(), quiet(4));
        let wired = Wired { board: &board, reaches: &[1, 2], chain: &chain };
        let played = play(&mut chips, wired, bytes, &mut || false);
        (chips, played)
    }

    /// The bytes of document 02's rules for vector 1: every state by name, and cell 0 at 1 twice.
    #[test]
    fn one_vector_clock_by_clock() {
        let scan = [1, 0, 0, 2, 0, 0, 1, 1, 0];
        let (chips, played) = played_on_two_nets(&[scan, scan].concat());
        let states = [SelectDrScan, CaptureDr, ShiftDr, ShiftDr, ShiftDr, ShiftDr, Exit1Dr, UpdateDr, RunTestIdle];
        assert_eq!(played.states, [states, states].concat());
        assert_eq!(shown(&played.updated), [[1, 0, 0, 0], [1, 0, 0, 0]]);
        // The first scan captures while 0 0 is driven, the second while 1 0 is: receiver 0, in cell 2, reads 1.
        assert_eq!(played.tdo, [[0; 9], [0, 0, 0, 0, 0, 1, 0, 0, 0]].concat());
        assert!(chips.extest && chips.state == RunTestIdle);
    }

    /// What was in the cells before the capture is seen by nobody, and what is open is what it happens to be.
    #[test]
    fn what_is_open_is_anything() {
        let ((board, chain), mut chips) = (two_nets(), Chips::idle(4, &mut || true));
        let wired = Wired { board: &board, reaches: &[1, 2], chain: &chain };
        let bytes = [1, 0, 0, 0, 0, 0, 1, 1, 0].repeat(2);
        let played = play(&mut chips, wired, &bytes, &mut || true);
        // At first all cells drive 1. Then 0 0 is driven, and cells 2 and 3 capture it; 0 and 1 capture anything.
        assert_eq!(played.tdo, [[1; 9], [1, 1, 1, 1, 1, 0, 0, 1, 1]].concat());
        assert_eq!(shown(&played.updated), [[0; 4]; 2]);
    }

    /// TMS is 1 a clock early: the rest of the shift is spent in Exit1-DR and Pause-DR, and nothing is ever updated.
    #[test]
    fn a_clock_early_in_each_scan() {
        let scan = [1, 0, 0, 2, 0, 1, 0, 1, 0];
        let (chips, played) = played_on_two_nets(&[scan, scan].concat());
        assert_eq!(played.states[5..9], [Exit1Dr, PauseDr, Exit2Dr, ShiftDr]);
        assert_eq!((played.updated.len(), chips.state), (0, PauseDr));
    }

    /// The shift is a clock too short, and all that follows comes a clock early: what is updated stands a cell too far
    /// from TDO, and in cell 0 is what cell 3 captured.
    #[test]
    fn a_shift_one_clock_too_short() {
        let scan = [1, 0, 0, 2, 0, 1, 1, 0];
        let (chips, played) = played_on_two_nets(&[scan, scan].concat());
        assert_eq!(shown(&played.updated), [[0, 1, 0, 0], [1, 1, 0, 0]]);
        assert_eq!(chips.state, RunTestIdle);
    }

    /// TMS is 1 a clock late: one clock more is shifted, the scan ends in Pause-DR, and nothing is updated. From there
    /// the next scan leads to Shift-DR again, and on through it to Exit1-DR.
    #[test]
    fn a_clock_late_in_each_scan() {
        let scan = [1, 0, 0, 2, 0, 0, 0, 1, 0];
        let (chips, played) = played_on_two_nets(&[scan, scan].concat());
        assert_eq!(played.states[6..9], [ShiftDr, Exit1Dr, PauseDr]);
        assert_eq!(
            played.states[9..],
            [Exit2Dr, ShiftDr, ShiftDr, ShiftDr, ShiftDr, ShiftDr, ShiftDr, Exit1Dr, PauseDr]
        );
        assert_eq!((played.updated.len(), chips.state), (0, PauseDr));
    }

    /// The shift is a clock too long, and all that follows comes a clock late: cell 0's bit leaves by TDO.
    #[test]
    fn a_shift_one_clock_too_long() {
        let scan = [1, 0, 0, 2, 0, 0, 0, 1, 1, 0];
        let (chips, played) = played_on_two_nets(&[scan, scan].concat());
        assert_eq!(shown(&played.updated), [[0; 4]; 2]);
        assert_eq!((played.tdo[7], played.tdo[17], chips.state), (1, 1, RunTestIdle));
        // With net 1 at 1 in place of net 0, net 0 is driven.
        let scan = [1, 0, 0, 0, 2, 0, 0, 1, 1, 0];
        assert_eq!(shown(&played_on_two_nets(&scan).1.updated), [[1, 0, 0, 0]]);
    }

    /// Cells in the opposite order: no driver drives 1, and a receiver's cell has the 1.
    #[test]
    fn cells_the_other_way_round() {
        let scan = [1, 0, 0, 0, 0, 0, 3, 1, 0];
        let (_, played) = played_on_two_nets(&[scan, scan].concat());
        assert_eq!(shown(&played.updated), [[0, 0, 0, 1]; 2]);
        assert_eq!(played.tdo, [0; 18]);
    }

    /// Without the last scan the last vector is driven, and what is read of it stays in the chips.
    #[test]
    fn without_the_last_scan() {
        let scans = [[1, 0, 0, 2, 0, 0, 1, 1, 0], [1, 0, 0, 0, 2, 0, 1, 1, 0]];
        let (_, played) = played_on_two_nets(&scans.concat());
        assert_eq!(shown(&played.updated), [[1, 0, 0, 0], [0, 1, 0, 0]]);
        assert_eq!(played.tdo[9..], [0, 0, 0, 0, 0, 1, 0, 0, 0]);
    }

    /// TMS that is 1 throughout resets the chips, and EXTEST is gone: the scan that follows updates nothing.
    #[test]
    fn test_logic_reset_ends_extest() {
        let scan = [1, 0, 0, 2, 0, 0, 1, 1, 0];
        let (chips, played) = played_on_two_nets(&[&scan[..], &[1; 3]].concat());
        assert_eq!((chips.extest, chips.state, played.updated.len()), (false, TestLogicReset, 1));
        let (chips, played) = played_on_two_nets(&[&[1, 1, 1, 0][..], &scan, &scan].concat());
        assert_eq!((chips.extest, chips.state, played.updated.len()), (false, RunTestIdle, 0));
        assert_eq!((chips.register, chips.outputs, played.tdo), (vec![false; 4], vec![false; 4], vec![0; 22]));
    }

    /// An instruction scan ends EXTEST in Update-IR and not before: until then the outputs stay.
    #[test]
    fn an_instruction_scan_ends_extest() {
        let scan = [1, 0, 0, 2, 0, 0, 1, 1, 0];
        let instruction = [1, 1, 0, 0, 2, 2, 3, 1, 0];
        let bytes = [scan, instruction, scan].concat();
        for clocks in 0..=bytes.len() {
            let (chips, played) = played_on_two_nets(&bytes[..clocks]);
            assert_eq!(chips.extest, clocks < 9 + 8);
            assert_eq!(played.updated.len(), usize::from(clocks >= 8));
            assert_eq!(chips.outputs[0], clocks >= 8);
        }
        // TDO is then anything, also in Shift-DR.
        let ((board, chain), mut chips) = (two_nets(), quiet(4));
        let wired = Wired { board: &board, reaches: &[1, 2], chain: &chain };
        assert_eq!(play(&mut chips, wired, &bytes, &mut || true).tdo[9..], [1; 18]);
    }

    /// A scan that pauses in the middle of the shift does what one without a pause does.
    #[test]
    fn a_pause_in_the_shift() {
        let scan = [1, 0, 0, 2, 0, 0, 1, 1, 0];
        let paused = [1, 0, 0, 2, 1, 0, 0, 1, 0, 0, 1, 1, 0];
        assert_eq!(shown(&played_on_two_nets(&paused).1.updated), shown(&played_on_two_nets(&scan).1.updated));
        let (_, played) = played_on_two_nets(&[&scan[..], &paused].concat());
        assert_eq!(played.tdo[9..], [0, 0, 0, 0, 0, 0, 0, 0, 0, 1, 0, 0, 0]);
    }

    /// Nets 0 and 1 tied together, and receiver 2, which is the second on net 1, floating.
    #[test]
    fn a_board_in_the_loop_by_hand() {
        let chain = Chain { cells: 7, drivers: vec![6, 1], receivers: vec![0, 5, 3] };
        for network in each_combination(2) {
            let board = Board { network, owners: vec![0, 1, 1] };
            let wired = Wired { board: &board, reaches: &[3, 3, 0], chain: &chain };
            let bytes = write_clocks(&board, &chain, &[0, 1, 2, 3], 60).unwrap();
            // What is open alternates, so both bits occur.
            let mut open = false;
            let mut anything = || {
                open = !open;
                open
            };
            let mut chips = Chips::idle(7, &mut anything);
            let played = play(&mut chips, wired, &bytes, &mut anything);
            let driven = [[0; 7], [0, 0, 0, 0, 0, 0, 1], [0, 1, 0, 0, 0, 0, 0], [0, 1, 0, 0, 0, 0, 1]];
            assert_eq!(shown(&played.updated), [&driven[..], &driven[3..]].concat());
            let tied = if network.gate == AND { [0, 0, 0, 3] } else { [0, 3, 3, 3] };
            let floating = 4 * network.level;
            let responses = read_clocks(&board, &chain, 4, &played.tdo, 4).unwrap();
            assert_eq!(responses, tied.map(|word| word + floating));
        }
    }
}
