//! The account.

use crate::{archive, by_number, message_length, Grade, Kind, Refusal, Stopped};

/// An account: the count of the frames that were sent with it, the sum of their powers, and the
/// largest energy of their blocks; and the changeover that it was opened with.
///
/// A block is 8 coordinates that begin at a position which 8 divides; by the worst of them an output
/// stage is sized.
///
/// ```
/// use frame_coder::{Account, Grade, Kind, Refusal};
///
/// let mut account = Account::open(0)?;
/// let mut frame = [0; 8];
/// account.send(Kind::Three, Grade::One, &[0x00, 0x08], &mut frame)?;
/// account.send(Kind::Three, Grade::One, &[0x02, 0x00], &mut frame)?;
/// assert_eq!((account.count(), account.sum(), account.largest()), (2, 2.5, 16));
///
/// // Two blocks: the frame is 16 times −2.
/// account.send(Kind::Four, Grade::One, &[0x20, 0, 0, 0, 0], &mut [0; 16])?;
/// assert_eq!((account.count(), account.sum(), account.largest()), (3, 6.5, 32));
///
/// // A refusal leaves the account as it was.
/// let refused = account.send(Kind::Three, Grade::One, &[0x00, 0x10], &mut frame);
/// assert_eq!(refused, Err(Refusal::SpareBits));
/// assert_eq!(account, Account::from_parts(3, 6.5, 32, 0));
/// # Ok::<(), Refusal>(())
/// ```
///
/// The count before a send is the number of the frame; but below the changeover frames follow the old rule,
/// which is that of number 0. [`Account::number`] says by which number the next frame is judged:
///
/// ```
/// use frame_coder::{read_strict_to_vec, Account, Grade, Kind, Refusal};
///
/// let (kind, grade) = (Kind::Three, Grade::One);
/// let mut account = Account::open(2)?;
/// for (number, first) in [(0, -4), (0, -4), (2, -4), (3, 4)] {
///     assert_eq!(account.number(), number);
///     let (frame, energy) = account.send_to_vec(kind, grade, &[0x00, 0x08])?;
///     assert_eq!((&frame[..], energy), (&[first, 0, 0, 0, 0, 0, 0, 0][..], 16));
///     assert_eq!(read_strict_to_vec(kind, grade, number, &frame)?, (vec![0x00, 0x08], 16));
/// }
/// # Ok::<(), Refusal>(())
/// ```
#[derive(Clone, Copy, Debug, PartialEq)]
pub struct Account {
    pub(crate) count: u32,
    pub(crate) sum: f64,
    pub(crate) largest: u64,
    pub(crate) changeover: u32,
}

impl Account {
    /// An account with so many frames is full, and none is opened with a changeover above it.
    pub const MAX_COUNT: u32 = 1_000_000;

    /// Opens an account of no frames with a changeover. The sum of one that grew from here is exact, and its
    /// largest block is that of all frames sent.
    ///
    /// With 0 every frame follows the rule of its number; with [`Account::MAX_COUNT`] none does, and all are
    /// sent by the old rule.
    ///
    /// ```
    /// use frame_coder::{Account, Refusal};
    ///
    /// assert_eq!(Account::open(7), Ok(Account::from_parts(0, 0.0, 0, 7)));
    /// assert_eq!(Account::open(1_000_001), Err(Refusal::Changeover));
    /// ```
    ///
    /// # Errors
    ///
    /// [`Refusal::Changeover`] where the changeover is above [`Account::MAX_COUNT`].
    pub fn open(changeover: u32) -> Result<Account, Refusal> {
        let mut account = Account::from_parts(0, 0.0, 0, 0);
        let Account { count, sum, largest, changeover: kept } = &mut account;
        // SAFETY: the four parts are lent for the call, each alone.
        by_number::answer(unsafe { archive::coder_open(changeover, count, sum, largest, kept) })?;
        Ok(account)
    }

    /// An account from elsewhere, which is taken as it comes, its changeover too.
    #[must_use]
    pub const fn from_parts(count: u32, sum: f64, largest: u64, changeover: u32) -> Account {
        Account { count, sum, largest, changeover }
    }

    /// The frames that were sent.
    #[must_use]
    pub const fn count(&self) -> u32 {
        self.count
    }

    /// The sum of their powers.
    #[must_use]
    pub const fn sum(&self) -> f64 {
        self.sum
    }

    /// The largest energy of their blocks; in an account from elsewhere at least the one it came with.
    #[must_use]
    pub const fn largest(&self) -> u64 {
        self.largest
    }

    /// The count from which on frames follow the rule of their number; it stays as it is.
    #[must_use]
    pub const fn changeover(&self) -> u32 {
        self.changeover
    }

    /// The number by which the next frame is judged ([`crate::read_strict`]): the count, and below the
    /// changeover 0.
    #[must_use]
    pub const fn number(&self) -> u32 {
        self.number_at(self.count)
    }

    /// The number by which the frame is judged that was sent at this count, with an account of this changeover.
    /// The message at place i of a queue, from 0, is sent at the count before the queue plus i.
    #[must_use]
    pub const fn number_at(&self, count: u32) -> u32 {
        if count < self.changeover {
            0
        } else {
            count
        }
    }

    /// Whether a further frame is refused.
    #[must_use]
    pub const fn is_full(&self) -> bool {
        self.count >= Account::MAX_COUNT
    }

    /// Sends as [`crate::send`] does, under [`Account::number`]; where the frame is sent, the account grows by it.
    ///
    /// # Errors
    ///
    /// As [`crate::send`], and last [`Refusal::AccountFull`].
    pub fn send(&mut self, kind: Kind, grade: Grade, message: &[u8], frame: &mut [i32]) -> Result<u64, Refusal> {
        by_number::send_counted(kind.number(), grade.number(), message, frame, self)
    }

    /// The same with a frame of its own.
    ///
    /// # Errors
    ///
    /// As [`Account::send`], but for the frame's length.
    pub fn send_to_vec(&mut self, kind: Kind, grade: Grade, message: &[u8]) -> Result<(Vec<i32>, u64), Refusal> {
        let mut frame = vec![0; kind.frame_length()];
        let energy = self.send(kind, grade, message, &mut frame)?;
        Ok((frame, energy))
    }

    /// Sends as [`crate::send_free`] does, with the last bits of the message free, under [`Account::number`]; the account grows by the
    /// frame as by any other.
    ///
    /// ```
    /// use frame_coder::{Account, Grade, Kind, Refusal};
    ///
    /// let mut account = Account::open(0)?;
    /// let mut frame = [0; 8];
    /// assert_eq!(account.send(Kind::Three, Grade::One, &[0x12, 0x00], &mut frame), Ok(12));
    /// assert_eq!(account.send_free(Kind::Three, Grade::One, 2, &[0x12, 0x00], &mut frame), Ok(4));
    /// assert_eq!(frame, [0, -1, 0, 1, 0, 1, 0, -1]);
    /// assert_eq!(account, Account::from_parts(2, 1.5 + 0.5, 12, 0));
    /// # Ok::<(), Refusal>(())
    /// ```
    ///
    /// # Errors
    ///
    /// As [`crate::send_free`], and last [`Refusal::AccountFull`].
    pub fn send_free(
        &mut self,
        kind: Kind,
        grade: Grade,
        free: u8,
        message: &[u8],
        frame: &mut [i32],
    ) -> Result<u64, Refusal> {
        by_number::send_counted_free(kind.number(), grade.number(), free, message, frame, self)
    }

    /// The same with a frame of its own.
    ///
    /// # Errors
    ///
    /// As [`Account::send_free`], but for the frame's length.
    pub fn send_free_to_vec(
        &mut self,
        kind: Kind,
        grade: Grade,
        free: u8,
        message: &[u8],
    ) -> Result<(Vec<i32>, u64), Refusal> {
        let mut frame = vec![0; kind.frame_length()];
        let energy = self.send_free(kind, grade, free, message, &mut frame)?;
        Ok((frame, energy))
    }

    /// Sends a queue: messages of one kind and grade that stand end to end, whose frames go end to end into
    /// `frames`. It gives the number of messages, which are then all sent.
    ///
    /// It does what [`Account::send`] would do with each in turn, and stops at the first that is refused. The
    /// frames before it are written, and the account has grown by them; the refused message writes nothing
    /// and adds nothing, and the coordinates behind those written keep their values.
    ///
    /// For N messages lend N times [`message_length`] bytes and N times [`Kind::frame_length`] coordinates. A
    /// queue of no messages is good, also with a full account.
    ///
    /// ```
    /// use frame_coder::{Account, Grade, Kind, Refusal, Stopped};
    ///
    /// let (kind, grade) = (Kind::Three, Grade::One);
    /// let mut account = Account::open(0)?;
    /// let mut frames = [0; 2 * Kind::Three.frame_length()];
    /// assert_eq!(account.send_queue(kind, grade, &[0x00, 0x08, 0x00, 0x08], &mut frames), Ok(2));
    /// assert_eq!(frames, [-4, 0, 0, 0, 0, 0, 0, 0, 4, 0, 0, 0, 0, 0, 0, 0]);
    /// assert_eq!(account, Account::from_parts(2, 4.0, 16, 0));
    ///
    /// // A spare bit of the second message is set: the first is sent and stands.
    /// let stopped = account.send_queue(kind, grade, &[0x01, 0x00, 0x00, 0x10], &mut frames);
    /// assert_eq!(stopped, Err(Stopped { sent: 1, refusal: Refusal::SpareBits }));
    /// assert_eq!(frames, [-1, -1, -1, -1, -1, -1, -1, -1, 4, 0, 0, 0, 0, 0, 0, 0]);
    /// assert_eq!(account, Account::from_parts(3, 5.0, 16, 0));
    /// # Ok::<(), Refusal>(())
    /// ```
    ///
    /// # Errors
    ///
    /// [`Stopped`], which has the refusal and the number of messages that were sent before it. In this order:
    /// bytes that are not whole messages ([`Refusal::MessageLength`]), coordinates that are not as many frames
    /// ([`Refusal::FrameLength`]), neither of which sends a message; then of each message in its turn
    /// [`Refusal::SpareBits`] and [`Refusal::AccountFull`].
    pub fn send_queue(
        &mut self,
        kind: Kind,
        grade: Grade,
        messages: &[u8],
        frames: &mut [i32],
    ) -> Result<usize, Stopped> {
        by_number::send_queue(kind.number(), grade.number(), messages, frames, self)
    }

    /// The same with frames of its own: gives those that were sent, end to end, also where the queue stopped,
    /// and beside them what [`Account::send_queue`] gives. `chunks_exact` takes them apart.
    ///
    /// ```
    /// use frame_coder::{read_strict_to_vec, Account, Grade, Kind, Refusal};
    ///
    /// let (kind, grade) = (Kind::Three, Grade::One);
    /// let mut account = Account::open(0)?;
    /// let messages = [0x02, 0x08, 0x01, 0x00, 0x00, 0x10, 0x01, 0x00];
    /// let (frames, queued) = account.send_queue_to_vec(kind, grade, &messages);
    /// let frames: Vec<&[i32]> = frames.chunks_exact(kind.frame_length()).collect();
    /// assert_eq!(frames, [[0, -3, 0, 1, 0, 1, 0, 1], [1; 8]]);
    /// let stopped = queued.unwrap_err();
    /// assert_eq!(stopped.to_string(), "2 sent, then refused 5: a spare or free bit of the message is set");
    ///
    /// // Each is judged by the number of its count.
    /// for (count, frame) in (0..).zip(frames) {
    ///     assert!(read_strict_to_vec(kind, grade, account.number_at(count), frame).is_ok());
    /// }
    /// # Ok::<(), Refusal>(())
    /// ```
    pub fn send_queue_to_vec(
        &mut self,
        kind: Kind,
        grade: Grade,
        messages: &[u8],
    ) -> (Vec<i32>, Result<usize, Stopped>) {
        let mut frames = vec![0; messages.len() / message_length(kind, grade) * kind.frame_length()];
        let queued = self.send_queue(kind, grade, messages, &mut frames);
        frames.truncate(queued.unwrap_or_else(|stopped| stopped.sent) * kind.frame_length());
        (frames, queued)
    }
}
