//! Commands through disjoint ranges of one memory.

use crate::order::Order;
use crate::range::{bits_of, length};
use crate::refusal::Refusal;
use crate::register::Register;
use crate::sys::{self, Span};
use core::fmt::{self, Debug, Formatter};
use core::marker::PhantomData;
use core::ops::Range;

/// How many spans a run has at most.
const MAX_SPANS: usize = 64;

/// How many requests are served by one call.
const AT_ONCE: usize = 64;

/// A command to one span.
///
/// A `k` counts the words that the span meets, from 0 on; a bit is named by its place in the span,
/// from 0 on. Which commands are refused, [`Reply::PastEnd`] says.
///
/// # Examples
///
/// ```
/// use worghulen::{Command, Lsb0, Reply, Request, Spans};
///
/// let mut words = [0x9b_u8];
/// let requests = [Request { span: 0, command: Command::Store(0, 0x24) }];
/// let mut replies = [Reply::Done];
/// Spans::<Lsb0>::new(&[1..7])?.run(&mut words, &requests, &mut replies)?;
/// assert_eq!(replies, [Reply::Word(0x1a)]);
/// assert_eq!(words, [0xa5]);
/// # Ok::<(), worghulen::Refusal>(())
/// ```
#[derive(Clone, Copy, PartialEq, Eq, Hash, Debug)]
pub enum Command {
    /// Returns the span's bits in its word `k`, each as the digit that it has there, and all others
    /// zero.
    Load(usize),
    /// Puts the digits of the number in the places of the span's bits in its word `k`, and returns
    /// as `Load` did before. The number is a word, and no value that has to fit: a digit where the
    /// span has no bit, or past the word's width, goes nowhere.
    Store(usize, u64),
    /// Makes the span's bits in its word `k` one, and returns as `Load` did before.
    Set(usize),
    /// Makes the span's bits in its word `k` zero, and returns as `Load` did before.
    Clear(usize),
    /// Turns the span's bits in its word `k` over, and returns as `Load` did before.
    Invert(usize),
    /// Returns a bit.
    Read(usize),
    /// Writes a bit, and returns it as it was.
    Replace(usize, bool),
    /// Exchanges two bits.
    Swap(usize, usize),
    /// Copies bits inside the span, as they were before; the two runs may overlap.
    Copy {
        /// The first bit that is copied.
        from: usize,
        /// Where it is copied to.
        to: usize,
        /// How many bits are copied.
        count: usize,
    },
    /// Makes a stretch of bits the same.
    Fill {
        /// The first bit that is written.
        from: usize,
        /// The place behind the last.
        to: usize,
        /// What each of them becomes.
        value: bool,
    },
}

/// A command to the span of a number, from 0 on.
///
/// # Examples
///
/// ```
/// use worghulen::{Command, Lsb0, Request, Spans};
///
/// let mut words = [0xfa_u8];
/// let request = Request { span: 1, command: Command::Clear(0) };
/// Spans::<Lsb0>::new(&[0..3, 3..8])?.serve(&mut words, &request)?;
/// assert_eq!(words, [0x02]);
/// # Ok::<(), worghulen::Refusal>(())
/// ```
#[derive(Clone, Copy, PartialEq, Eq, Hash, Debug)]
pub struct Request {
    /// The number of the span in the list of spans.
    pub span: usize,
    /// What is asked of it.
    pub command: Command,
}

/// The reply to a request.
///
/// # Examples
///
/// ```
/// use worghulen::{Command, Lsb0, Reply, Request, Spans};
///
/// let mut words = [0x12_u8, 0x34];
/// let command = Command::Load(1);
/// let requests = [Request { span: 0, command }, Request { span: 1, command }];
/// let mut replies = [Reply::Done; 2];
/// Spans::<Lsb0>::new(&[4..12])?.run(&mut words, &requests, &mut replies)?;
/// assert_eq!(replies, [Reply::Word(0x04), Reply::NoSpan]);
/// # Ok::<(), worghulen::Refusal>(())
/// ```
#[derive(Clone, Copy, PartialEq, Eq, Hash, Debug)]
pub enum Reply {
    /// A word, to `Load`, `Store`, `Set`, `Clear` and `Invert`.
    Word(u64),
    /// A bit, to `Read` and `Replace`.
    Bit(bool),
    /// To `Swap`, `Copy` and `Fill`.
    Done,
    /// The command is refused and changes nothing: `k` is at least the number of words that the
    /// span meets, a bit's place is at least the span's length, `from + count` or `to + count` of a
    /// `Copy` passes the length, or a `Fill` has its `from` past its `to`, or its `to` past the
    /// length.
    PastEnd,
    /// There is no span of that number, and nothing is changed.
    NoSpan,
}

/// Ranges of places, at most 64, through which a memory gets commands.
///
/// # Examples
///
/// ```
/// use worghulen::{Command, Lsb0, Reply, Request, Spans};
///
/// let mut words = [0_u8];
/// let requests = [
///     Request { span: 1, command: Command::Set(0) },
///     Request { span: 0, command: Command::Replace(1, true) },
///     Request { span: 1, command: Command::Read(4) },
/// ];
/// let mut replies = [Reply::Done; 3];
/// Spans::<Lsb0>::new(&[0..3, 3..8])?.run(&mut words, &requests, &mut replies)?;
/// assert_eq!(replies, [Reply::Word(0), Reply::Bit(false), Reply::Bit(true)]);
/// assert_eq!(words, [0b1111_1010]);
/// # Ok::<(), worghulen::Refusal>(())
/// ```
#[derive(Clone, PartialEq, Eq, Hash)]
pub struct Spans<O> {
    /// The spans, and behind them empty ones.
    list: [Span; MAX_SPANS],
    count: usize,
    order: PhantomData<O>,
}

impl<O> Debug for Spans<O> {
    /// The ranges, as a list.
    fn fmt(&self, f: &mut Formatter<'_>) -> fmt::Result {
        let spans = self.list[..self.count].iter();
        let ranges = spans.map(|span| span.start..span.start + span.count);
        f.debug_list().entries(ranges).finish()
    }
}

impl<O: Order> Spans<O> {
    /// The spans of these ranges, whose numbers are their indices here. Costs by ranges.
    ///
    /// # Errors
    ///
    /// [`Refusal::TooManySpans`] where there are more than 64, and for the first range that is
    /// refused [`Refusal::Reversed`] where it starts past its end and [`Refusal::TooLong`] where
    /// it has too many bits.
    ///
    /// # Examples
    ///
    /// ```
    /// use worghulen::{Lsb0, Refusal, Spans};
    ///
    /// assert!(Spans::<Lsb0>::new(&[0..3, 3..8]).is_ok());
    /// assert_eq!(Spans::<Lsb0>::new(&vec![0..0; 65]), Err(Refusal::TooManySpans));
    /// ```
    pub fn new(ranges: &[Range<usize>]) -> Result<Self, Refusal> {
        let mut list = [Span::default(); MAX_SPANS];
        let count = ranges.len();
        let own = list.get_mut(..count).ok_or(Refusal::TooManySpans)?;
        for (own, range) in own.iter_mut().zip(ranges) {
            *own = Span::new(range.clone())?;
        }
        Ok(Self {
            list,
            count,
            order: PhantomData,
        })
    }

    /// The spans, as the library has them.
    fn own(&self) -> &[Span] {
        &self.list[..self.count]
    }

    /// Tests that each span lies within the words, and that no two have a bit in common: what
    /// [`run`](Self::run) wants of them. It tests each with each, so costs at most 2016 such tests.
    ///
    /// # Errors
    ///
    /// [`Refusal::Outside`] where a span ends past the last bit, otherwise [`Refusal::Overlap`].
    ///
    /// # Examples
    ///
    /// ```
    /// use worghulen::{Lsb0, Refusal, Spans};
    ///
    /// let words = [0_u8];
    /// assert_eq!(Spans::<Lsb0>::new(&[0..3, 3..8])?.can_run(&words), Ok(()));
    /// assert_eq!(Spans::<Lsb0>::new(&[0..3, 2..8])?.can_run(&words), Err(Refusal::Overlap));
    /// let refused = Spans::<Lsb0>::new(&[0..3, 3..9])?.can_run(&words);
    /// assert_eq!(refused, Err(Refusal::Outside { index: 9, len: 8 }));
    /// # Ok::<(), Refusal>(())
    /// ```
    pub fn can_run<T: Register>(&self, words: &[T]) -> Result<(), Refusal> {
        let tested = T::can_run(O::CODE, self.own(), words.len());
        tested.map_err(|why| with_place::<T>(why, self.own(), words))
    }

    /// Gives the spans the commands of the requests, in their order, and writes reply n to request
    /// n. It allocates nothing, however many there are.
    ///
    /// Each span's replies are those that its own list of bits gives under its own commands alone.
    /// In the end each span has the list that its commands leave, and every other bit of the words
    /// is as before. Costs what the commands cost, and a test of the spans for each 64 requests.
    ///
    /// # Errors
    ///
    /// [`Refusal::NoRoom`] where there are not as many replies as requests, otherwise as
    /// [`can_run`](Self::can_run). Nothing is changed then, and no reply is written.
    ///
    /// # Examples
    ///
    /// ```
    /// use worghulen::{Command, Lsb0, Refusal, Reply, Request, Spans};
    ///
    /// let mut words = [0x5a_u8];
    /// let command = Command::Invert(0);
    /// let requests = [Request { span: 0, command }, Request { span: 1, command }];
    /// let mut replies = [Reply::Done; 2];
    /// let spans = Spans::<Lsb0>::new(&[0..3, 3..8])?;
    /// spans.run(&mut words, &requests, &mut replies)?;
    /// assert_eq!(replies, [Reply::Word(0x02), Reply::Word(0x58)]);
    /// assert_eq!(words, [0xa5]);
    /// assert_eq!(spans.run(&mut words, &requests, &mut []), Err(Refusal::NoRoom));
    /// # Ok::<(), Refusal>(())
    /// ```
    pub fn run<T: Register>(
        &self,
        words: &mut [T],
        requests: &[Request],
        replies: &mut [Reply],
    ) -> Result<(), Refusal> {
        if requests.len() != replies.len() {
            return Err(Refusal::NoRoom);
        }
        // (also where there are no requests)
        self.can_run(words)?;
        in_turn(requests, replies, |asked, answers| {
            T::run(O::CODE, self.own(), words, asked, answers)
        })
    }

    /// Serves one request, as [`run`](Self::run) does.
    ///
    /// # Errors
    ///
    /// As [`can_run`](Self::can_run).
    ///
    /// # Examples
    ///
    /// ```
    /// use worghulen::{Command, Msb0, Reply, Request, Spans};
    ///
    /// let mut words = [0b1001_0000_u8];
    /// let spans = Spans::<Msb0>::new(&[0..4])?;
    /// let request = Request { span: 0, command: Command::Swap(2, 3) };
    /// assert_eq!(spans.serve(&mut words, &request)?, Reply::Done);
    /// assert_eq!(words, [0b1010_0000]);
    /// # Ok::<(), worghulen::Refusal>(())
    /// ```
    pub fn serve<T: Register>(&self, words: &mut [T], request: &Request) -> Result<Reply, Refusal> {
        let mut answer = [sys::Reply::default()];
        let request = own_request(request);
        let served = T::run(O::CODE, self.own(), words, &[request], &mut answer);
        served.map_err(|why| with_place::<T>(why, self.own(), words))?;
        answered(answer[0])
    }
}

impl Span {
    /// The span of a range of places. Constant time.
    ///
    /// # Errors
    ///
    /// [`Refusal::Reversed`] where the range starts past its end, and [`Refusal::TooLong`] where it
    /// has too many bits.
    ///
    /// # Examples
    ///
    /// ```
    /// use worghulen::{Refusal, Span};
    ///
    /// assert_eq!(Span::new(3..8)?, Span { start: 3, count: 5 });
    /// assert_eq!(Span::new(3..2), Err(Refusal::Reversed));
    /// # Ok::<(), Refusal>(())
    /// ```
    pub fn new(range: Range<usize>) -> Result<Self, Refusal> {
        let count = length(range.start, range.end)?;
        Ok(Self {
            start: range.start,
            count,
        })
    }
}

/// Any number of ranges of places through which a memory gets commands, with room for the number of
/// each, which a test puts in the order in which they start. So the test of n spans costs n log n.
///
/// # Examples
///
/// ```
/// use worghulen::{Command, Lsb0, ManySpans, Refusal, Reply, Request, Span};
///
/// // A hundred spans of three places each.
/// let spans: Vec<Span> = (0..100).map(|i| Span { start: 4 * i, count: 3 }).collect();
/// let mut room = vec![0; 100];
/// let mut words = [0_u64; 7];
/// let requests = [Request { span: 99, command: Command::Set(0) }];
/// let mut replies = [Reply::Done];
/// let mut many = ManySpans::<Lsb0>::new(&spans, &mut room)?;
/// many.run(&mut words, &requests, &mut replies)?;
/// assert_eq!(words[6], 0b111 << 12);
/// # Ok::<(), Refusal>(())
/// ```
#[derive(Debug)]
pub struct ManySpans<'a, O> {
    list: &'a [Span],
    room: &'a mut [usize],
    order: PhantomData<O>,
}

impl<'a, O: Order> ManySpans<'a, O> {
    /// The spans of a list, whose numbers are their indices there. Constant time.
    ///
    /// # Errors
    ///
    /// [`Refusal::NoRoom`] where there are not as many numbers of room as spans.
    ///
    /// # Examples
    ///
    /// ```
    /// use worghulen::{Lsb0, ManySpans, Refusal, Span};
    ///
    /// let list = [Span::new(0..3)?, Span::new(3..8)?];
    /// assert!(ManySpans::<Lsb0>::new(&list, &mut [0; 2]).is_ok());
    /// assert_eq!(ManySpans::<Lsb0>::new(&list, &mut [0]).err(), Some(Refusal::NoRoom));
    /// # Ok::<(), Refusal>(())
    /// ```
    pub fn new(list: &'a [Span], room: &'a mut [usize]) -> Result<Self, Refusal> {
        if list.len() != room.len() {
            return Err(Refusal::NoRoom);
        }
        Ok(Self {
            list,
            room,
            order: PhantomData,
        })
    }

    /// The numbers of the spans, each once, in the order in which they start, where a test has found
    /// that each lies in its memory; before that, what stood in the room. Constant time.
    ///
    /// # Examples
    ///
    /// ```
    /// use worghulen::{Lsb0, ManySpans, Span};
    ///
    /// let list = [Span::new(3..8)?, Span::new(0..3)?];
    /// let mut room = [0; 2];
    /// let mut many = ManySpans::<Lsb0>::new(&list, &mut room)?;
    /// many.can_run(&[0_u8])?;
    /// assert_eq!(many.in_order(), [1, 0]);
    /// # Ok::<(), worghulen::Refusal>(())
    /// ```
    #[must_use]
    pub fn in_order(&self) -> &[usize] {
        self.room
    }

    /// Tests that each span lies within the words, and that no two have a bit in common: what
    /// [`run`](Self::run) wants of them. Costs n log n for n spans.
    ///
    /// # Errors
    ///
    /// [`Refusal::TooLong`] where a span has too many bits, otherwise [`Refusal::Outside`] where one
    /// ends past the last bit, otherwise [`Refusal::Overlap`].
    ///
    /// # Examples
    ///
    /// ```
    /// use worghulen::{Lsb0, ManySpans, Refusal, Span};
    ///
    /// let list = [Span::new(3..8)?, Span::new(0..4)?];
    /// let mut room = [0; 2];
    /// let mut many = ManySpans::<Lsb0>::new(&list, &mut room)?;
    /// assert_eq!(many.can_run(&[0_u8]), Err(Refusal::Overlap));
    /// # Ok::<(), Refusal>(())
    /// ```
    pub fn can_run<T: Register>(&mut self, words: &[T]) -> Result<(), Refusal> {
        let tested = T::can_run_in(O::CODE, self.list, words.len(), self.room);
        tested.map_err(|why| with_place::<T>(why, self.list, words))
    }

    /// Gives the spans the commands of the requests, as [`Spans::run`] does. Costs one test of the
    /// spans, and what the commands cost. It allocates nothing.
    ///
    /// # Errors
    ///
    /// [`Refusal::NoRoom`] where there are not as many replies as requests, otherwise as
    /// [`can_run`](Self::can_run). Nothing is changed then, but for the room, and no reply is
    /// written.
    ///
    /// # Examples
    ///
    /// ```
    /// use worghulen::{Command, Lsb0, ManySpans, Reply, Request, Span};
    ///
    /// let list = [Span::new(0..3)?, Span::new(3..8)?];
    /// let mut room = [0; 2];
    /// let mut words = [0x5a_u8];
    /// let requests = [Request { span: 1, command: Command::Invert(0) }];
    /// let mut replies = [Reply::Done];
    /// let mut many = ManySpans::<Lsb0>::new(&list, &mut room)?;
    /// many.run(&mut words, &requests, &mut replies)?;
    /// assert_eq!((words, replies), ([0xa2], [Reply::Word(0x58)]));
    /// # Ok::<(), worghulen::Refusal>(())
    /// ```
    pub fn run<T: Register>(
        &mut self,
        words: &mut [T],
        requests: &[Request],
        replies: &mut [Reply],
    ) -> Result<(), Refusal> {
        if requests.len() != replies.len() {
            return Err(Refusal::NoRoom);
        }
        // (also where there are no requests)
        self.can_run(words)?;
        let mut named = Named::default();
        in_turn(requests, replies, |asked, answers| {
            // (some of spans that serve do so too)
            named.take(self.list, asked);
            let spans = &named.spans[..named.count];
            let room = &mut named.room[..named.count];
            T::run_in(O::CODE, spans, words, asked, answers, room)
        })
    }
}

/// Why spans are refused, with the end of the first that is outside of the words.
#[cold]
fn with_place<T: Register>(why: Refusal, spans: &[Span], words: &[T]) -> Refusal {
    let len = bits_of(words.len(), T::BITS);
    let mut ends = spans.iter().map(|it| it.start.saturating_add(it.count));
    match (why, ends.find(|end| *end > len)) {
        (Refusal::Outside { .. }, Some(index)) => Refusal::Outside { index, len },
        _ => why,
    }
}

/// The spans that some requests name, each once, so that a call tests no others.
struct Named {
    numbers: [usize; AT_ONCE],
    spans: [Span; AT_ONCE],
    room: [usize; AT_ONCE],
    count: usize,
}

impl Default for Named {
    /// No spans.
    fn default() -> Self {
        Self {
            numbers: [0; AT_ONCE],
            spans: [Span::default(); AT_ONCE],
            room: [0; AT_ONCE],
            count: 0,
        }
    }
}

impl Named {
    /// Takes the spans of a list that at most 64 requests name, and writes to each request which of
    /// those it names. One that names none of the list names none of those.
    fn take(&mut self, list: &[Span], asked: &mut [sys::Request]) {
        self.count = 0;
        for request in asked {
            let Some(span) = list.get(request.span) else {
                request.span = usize::MAX;
                continue;
            };
            let known = &self.numbers[..self.count];
            let place = known.iter().position(|number| *number == request.span);
            let place = place.unwrap_or(self.count);
            if place == self.count {
                self.numbers[place] = request.span;
                self.spans[place] = *span;
                self.count += 1;
            }
            request.span = place;
        }
    }
}

/// Serves requests by calls of some at a time, and writes reply n to request n.
fn in_turn(
    requests: &[Request],
    replies: &mut [Reply],
    mut serve: impl FnMut(&mut [sys::Request], &mut [sys::Reply]) -> Result<(), Refusal>,
) -> Result<(), Refusal> {
    let mut asked = [sys::Request::default(); AT_ONCE];
    let mut answers = [sys::Reply::default(); AT_ONCE];
    for (requests, replies) in requests.chunks(AT_ONCE).zip(replies.chunks_mut(AT_ONCE)) {
        for (own, request) in asked.iter_mut().zip(requests) {
            *own = own_request(request);
        }
        let answers = &mut answers[..requests.len()];
        serve(&mut asked[..requests.len()], answers)?;
        for (reply, answer) in replies.iter_mut().zip(answers) {
            *reply = answered(*answer)?;
        }
    }
    Ok(())
}

/// A request as the library has it.
fn own_request(request: &Request) -> sys::Request {
    let (command, [a, b, count], number) = match request.command {
        Command::Load(k) => (0, [k, 0, 0], 0),
        Command::Store(k, number) => (1, [k, 0, 0], number),
        Command::Set(k) => (2, [k, 0, 0], 0),
        Command::Clear(k) => (3, [k, 0, 0], 0),
        Command::Invert(k) => (4, [k, 0, 0], 0),
        Command::Read(i) => (5, [i, 0, 0], 0),
        Command::Replace(i, bit) => (6, [i, 0, 0], bit.into()),
        Command::Swap(i, j) => (7, [i, j, 0], 0),
        Command::Copy { from, to, count } => (8, [from, to, count], 0),
        Command::Fill { from, to, value } => (9, [from, to, 0], value.into()),
    };
    sys::Request {
        span: request.span,
        a,
        b,
        count,
        number,
        command,
    }
}

/// A reply of the library.
fn answered(reply: sys::Reply) -> Result<Reply, Refusal> {
    Ok(match reply.kind {
        0 => Reply::Word(reply.number),
        1 => Reply::Bit(reply.number != 0),
        2 => Reply::Done,
        3 => Reply::PastEnd,
        4 => Reply::NoSpan,
        unknown => return Err(Refusal::Unknown(unknown)),
    })
}
