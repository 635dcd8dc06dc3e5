//! The Datalink line master (document 01, "Datalink", second half).

use crate::blocks::{padded, sum, sum_of_first};
use crate::datalink::LONGEST;
use crate::message::{data_room, forced, Head, ACKNOWLEDGE, CHANGE, CHANGE_BITS, HEAD, INTERROGATE, START};
use crate::numbers::{Number, Reply};

const IA_MOST: u32 = 31;
const ADDRESS_MOST: u32 = 65_535;
const ADDRESS_END: usize = 65_536;

/// What is asked of the card at one I.A.
#[derive(Clone, Copy, PartialEq, Eq, Debug)]
pub struct Request<'a> {
    /// The card's I.A.
    pub ia: u32,
    /// The first byte's address.
    pub address: u32,
    /// Bytes or bits.
    pub order: Order<'a>,
}

/// The bytes or bits of a request.
#[derive(Clone, Copy, PartialEq, Eq, Debug)]
pub enum Order<'a> {
    /// New bytes.
    Bytes(&'a [u8]),
    /// Bits forced by masks and states.
    Bits {
        /// A zero forces its bit to 0.
        masks: &'a [u8],
        /// A one forces its bit to 1.
        states: &'a [u8],
    },
}

/// What the master says.
#[derive(Clone, Copy, PartialEq, Eq, Debug)]
pub enum Says {
    /// The exchange has not ended.
    Open,
    /// The read-back was as asked.
    Done,
    /// Anything else.
    Unknown,
}

/// The frame last sent, or how the exchange ended.
#[derive(Clone, Copy, PartialEq, Eq, Debug)]
enum State {
    New,
    ChangeSent,
    AcknowledgeSent,
    InterrogateSent,
    Done,
    Unknown,
}

/// A line master's state between two steps.
#[derive(Clone, PartialEq, Eq, Debug)]
pub struct Master {
    state: State,
}

impl Master {
    /// A master that has sent nothing.
    pub const fn new() -> Self {
        Self { state: State::New }
    }

    /// What the master says.
    pub fn says(&self) -> Says {
        match self.state {
            State::Done => Says::Done,
            State::Unknown => Says::Unknown,
            _ => Says::Open,
        }
    }
}

impl Default for Master {
    fn default() -> Self {
        Self::new()
    }
}

/// Entry: the master's next step, with the answer that the frame last sent got, if any. Gives 0 with a frame, 1 at the
/// end, or 7, 11, 10 for a refused step, which moves nothing.
pub fn step(master: &mut Master, request: &Request, answer: Option<&[u8]>, frame: &mut [u8]) -> Reply {
    let answer = answer.unwrap_or_default();
    match request.order {
        Order::Bytes(bytes) => step_of(Bytes(bytes), master, request, answer, frame),
        Order::Bits { masks, states } if masks.len() == states.len() => {
            let states = &states[..masks.len()];
            step_of(Bits { masks, states }, master, request, answer, frame)
        }
        Order::Bits { .. } => Reply::silent(Number::Outside),
    }
}

/// The step for either kind of change.
#[inline(always)]
fn step_of(change: impl Change, master: &mut Master, request: &Request, answer: &[u8], frame: &mut [u8]) -> Reply {
    let Some(plan) = Plan::of(change, request) else {
        return Reply::silent(Number::Outside);
    };
    let Some(frame) = frame.first_chunk_mut() else {
        return Reply::silent(Number::ShortBuffer);
    };
    match master.state {
        State::New => {
            master.state = State::ChangeSent;
            Reply::answered(plan.write_change(frame))
        }
        State::ChangeSent if plan.is_echo(answer) => {
            master.state = State::AcknowledgeSent;
            Reply::answered(plan.write_acknowledge(frame))
        }
        State::AcknowledgeSent => {
            master.state = State::InterrogateSent;
            Reply::answered(plan.write_interrogate(frame))
        }
        State::InterrogateSent if plan.is_as_asked(answer) => {
            master.state = State::Done;
            Reply::silent(Number::Silent)
        }
        State::ChangeSent | State::InterrogateSent => {
            master.state = State::Unknown;
            Reply::silent(Number::Silent)
        }
        State::Done | State::Unknown => Reply::silent(Number::NothingPending),
    }
}

/// The bytes or bits of a request: what its change sends, and what must come back.
trait Change: Copy {
    /// Change for bytes, Change Bits for bits.
    const COMMAND: u8;
    /// Most bytes named.
    const MOST: usize;
    /// Data bytes of the change for each byte named.
    const WIDTH: usize;

    /// How many bytes are named.
    fn named(self) -> usize;
    /// Writes the data of the change.
    fn write(self, data: &mut [u8]);
    /// Whether this is the data of the change.
    fn is_sent(self, data: &[u8]) -> bool;
    /// Whether the bytes read back are as asked.
    fn is_as_asked(self, bytes: &[u8]) -> bool;
}

/// New bytes.
#[derive(Clone, Copy)]
struct Bytes<'a>(&'a [u8]);

impl Change for Bytes<'_> {
    const COMMAND: u8 = CHANGE;
    const MOST: usize = 32;
    const WIDTH: usize = 1;

    #[inline(always)]
    fn named(self) -> usize {
        self.0.len()
    }

    #[inline(always)]
    fn write(self, data: &mut [u8]) {
        data.copy_from_slice(self.0);
    }

    #[inline(always)]
    fn is_sent(self, data: &[u8]) -> bool {
        data == self.0
    }

    #[inline(always)]
    fn is_as_asked(self, bytes: &[u8]) -> bool {
        bytes == self.0
    }
}

/// As many states as masks.
#[derive(Clone, Copy)]
struct Bits<'a> {
    masks: &'a [u8],
    states: &'a [u8],
}

impl Change for Bits<'_> {
    const COMMAND: u8 = CHANGE_BITS;
    const MOST: usize = 16;
    const WIDTH: usize = 2;

    #[inline(always)]
    fn named(self) -> usize {
        self.masks.len()
    }

    /// Eight masks and states at once, as far as there are eight.
    #[inline(always)]
    fn write(self, data: &mut [u8]) {
        let pairs = data.as_chunks_mut::<2>().0;
        let (masks, states) = (&self.masks[..pairs.len()], &self.states[..pairs.len()]);
        let mut first = 0;
        while let (Some(pairs), Some(masks), Some(states)) = (
            pairs[first..].first_chunk_mut::<8>(),
            masks[first..].first_chunk::<8>(),
            states[first..].first_chunk::<8>(),
        ) {
            for ((pair, &mask), &state) in pairs.iter_mut().zip(masks).zip(states) {
                *pair = [mask, state];
            }
            first += 8;
        }
        while first < pairs.len() {
            pairs[first] = [masks[first], states[first]];
            first += 1;
        }
    }

    #[inline(always)]
    fn is_sent(self, data: &[u8]) -> bool {
        self.all(data.as_chunks().0, |pair, mask, state| pair == [mask, state])
    }

    #[inline(always)]
    fn is_as_asked(self, bytes: &[u8]) -> bool {
        self.all(bytes, |byte, mask, state| forced(byte, mask, state) == byte)
    }
}

impl Bits<'_> {
    /// Whether something holds of each item with its mask and state, asked of eight at once as far as there are eight.
    #[inline(always)]
    fn all<T: Copy>(self, items: &[T], holds: impl Fn(T, u8, u8) -> bool) -> bool {
        let (masks, states) = (&self.masks[..items.len()], &self.states[..items.len()]);
        let mut first = 0;
        while let (Some(items), Some(masks), Some(states)) = (
            items[first..].first_chunk::<8>(),
            masks[first..].first_chunk::<8>(),
            states[first..].first_chunk::<8>(),
        ) {
            if !(0..8).fold(true, |all, place| {
                all & holds(items[place], masks[place], states[place])
            }) {
                return false;
            }
            first += 8;
        }
        while first < items.len() {
            if !holds(items[first], masks[first], states[first]) {
                return false;
            }
            first += 1;
        }
        true
    }
}

/// A request that 7 does not refuse.
struct Plan<C> {
    change: C,
    ia: u8,
    address: u16,
}

impl<C: Change> Plan<C> {
    /// None exactly where document 01 refuses the request with 7, but for masks and states that differ in number.
    #[inline(always)]
    fn of(change: C, request: &Request) -> Option<Self> {
        let named = change.named();
        let fits = request.ia <= IA_MOST
            && named <= C::MOST
            && request.address <= ADDRESS_MOST
            && request.address as usize + named <= ADDRESS_END;
        fits.then_some(Self {
            change,
            ia: request.ia as u8,
            address: request.address as u16,
        })
    }

    /// The head of the change.
    #[inline(always)]
    fn change_head(&self) -> Head {
        let num = C::WIDTH * self.change.named();
        Head::new(C::COMMAND | self.ia, num as u8, self.address)
    }

    /// The head of the interrogate.
    #[inline(always)]
    fn interrogate_head(&self) -> Head {
        Head::new(INTERROGATE | self.ia, self.change.named() as u8, self.address)
    }

    #[inline(always)]
    fn write_change(&self, frame: &mut [u8; LONGEST]) -> usize {
        let head = self.change_head();
        let end = HEAD + C::WIDTH * self.change.named();
        head.write(&[], frame);
        self.change.write(&mut frame[HEAD..end]);
        frame[end] = head.sum().wrapping_add(sum_of_first(end - HEAD, data_room(frame)));
        end + 1
    }

    #[inline(always)]
    fn write_acknowledge(&self, frame: &mut [u8; LONGEST]) -> usize {
        let acknowledge = [START, ACKNOWLEDGE | self.ia];
        frame[..acknowledge.len()].copy_from_slice(&acknowledge);
        acknowledge.len()
    }

    #[inline(always)]
    fn write_interrogate(&self, frame: &mut [u8; LONGEST]) -> usize {
        let head = self.interrogate_head();
        head.write(&[], frame);
        frame[HEAD] = head.sum();
        HEAD + 1
    }

    /// Whether the answer is the change's exact echo.
    #[inline(always)]
    fn is_echo(&self, answer: &[u8]) -> bool {
        let count = C::WIDTH * self.change.named();
        response_data(answer, self.change_head(), count).is_some_and(|data| self.change.is_sent(data))
    }

    /// Whether the answer is a response to the interrogate with every byte, or every forced bit, as asked.
    #[inline(always)]
    fn is_as_asked(&self, answer: &[u8]) -> bool {
        let count = self.change.named();
        response_data(answer, self.interrogate_head(), count).is_some_and(|bytes| self.change.is_as_asked(bytes))
    }
}

/// The data of an answer that is a response to a request with this head, has this many data bytes and a right LRC.
#[inline(always)]
fn response_data(answer: &[u8], request: Head, count: usize) -> Option<&[u8]> {
    if answer.len() != HEAD + count + 1 || answer[0] != START {
        return None;
    }
    let (head, data, lrc) = Head::take(answer)?;
    (head == request.response() && head.sum().wrapping_add(sum(&padded(data, 0))) == lrc).then_some(data)
}
