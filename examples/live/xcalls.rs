//! System calls inside memory transactions, from Rust: over the static library of crates/xc_live_c, which `xcalls.h` declares. It needs
//! std alone. docs/LIVE-IN-RUST.md tells how it is used.
//!
//! A [`Desk`] is shared by threads. Each takes a [`Client`] of it, and runs bodies as transactions by [`Client::run`].
use std::cell::Cell;
use std::marker::PhantomData;
use std::sync::{Condvar, Mutex, MutexGuard};

/// What the library declares. Nothing of it is seen outside.
mod c {
    use std::ffi::c_void;

    pub const OK: i32 = 0;
    pub const WAIT: i32 = 1;
    pub const AGAIN: i32 = 2;
    pub const ABORTED: i32 = 3;
    pub const NOT_BEGUN: i32 = 5;
    pub const MISPLACED: i32 = 7;
    pub const BAD_NAME: i32 = 10;
    pub const TOO_MANY_NAMES: i32 = 11;
    pub const REFUSED: i32 = 12;
    pub const NO_MEMORY: i32 = 14;
    pub const BAD_TEXT: i32 = 15;
    pub const FULL: i32 = 16;
    pub const END: u32 = 8;
    pub const EMPTY: u32 = 9;
    pub const MOST_CALL_BYTES: usize = 1024;

    /// A desk or a text: null where there is none.
    #[repr(C)]
    pub struct Kept {
        pub at: *mut c_void,
    }

    // What is behind the pointer is used by one call at a time, under the desk's mutex.
    unsafe impl Send for Kept {}

    unsafe extern "C" {
        pub fn xc_open_with(desk: *mut Kept, words: u32, clients: u32, attempts: u32, text: *const u8, length: usize, line: *mut u32) -> i32;
        pub fn xc_close(desk: *mut Kept) -> i32;
        pub fn xc_begin(desk: *mut Kept, client: u32) -> i32;
        pub fn xc_commit(desk: *mut Kept, client: u32) -> i32;
        pub fn xc_abort(desk: *mut Kept, client: u32) -> i32;
        pub fn xc_hand_out(desk: *mut Kept, text: *mut Kept, length: *mut usize) -> i32;
        pub fn xc_finish(desk: *mut Kept, text: *mut Kept, length: *mut usize) -> i32;
        pub fn xc_copy_text(text: *mut Kept, from: usize, into: *mut u8, room: usize, copied: *mut usize) -> i32;
        pub fn xc_free_text(text: *mut Kept) -> i32;
        pub fn xc_pair(desk: *mut Kept, client: u32, kind: *mut u32, value: *mut u64, other: *mut u64) -> i32;
    }

    /// The calls: each has its own arguments between the client and what it says.
    macro_rules! calls {
        ($($name:ident($($argument:ident: $type:ty),*);)*) => {
            unsafe extern "C" {
                $(pub fn $name(desk: *mut Kept, client: u32, $($argument: $type,)* kind: *mut u32, value: *mut u64) -> i32;)*
            }
        };
    }

    calls! {
        xc_load(at: u64);
        xc_store(at: u64, number: u64);
        xc_open_file(name: *const u8, length: usize);
        xc_create(name: *const u8, length: usize);
        xc_unlink(name: *const u8, length: usize);
        xc_rename(from: *const u8, from_length: usize, to: *const u8, to_length: usize);
        xc_read(handle: u16, into: *mut u8, room: usize);
        xc_overwrite(handle: u16, bytes: *const u8, length: usize);
        xc_append(handle: u16, bytes: *const u8, length: usize);
        xc_seek(handle: u16, to: u64);
        xc_length(handle: u16);
        xc_sync(handle: u16);
        xc_close_handle(handle: u16);
        xc_pipe();
        xc_read_pipe(handle: u16, into: *mut u8, room: usize);
        xc_write_pipe(handle: u16, bytes: *const u8, length: usize);
        xc_send(handle: u16, bytes: *const u8, length: usize);
        xc_receive(handle: u16, into: *mut u8, room: usize);
        xc_shutdown(handle: u16);
        xc_save();
        xc_keep();
        xc_back();
    }
}

/// Makes a call of a transaction, with its own arguments, and gives what it said.
macro_rules! call {
    ($tx:expr, $name:ident $(, $argument:expr)*) => {
        $tx.call(|desk, client, said| unsafe { c::$name(desk, client, $($argument,)* &mut said.kind, &mut said.value) })
    };
}

/// Why a call isn't done. The transaction goes on.
#[derive(Clone, Copy, Debug, PartialEq, Eq)]
pub enum Refusal {
    /// No file has the name.
    NoName,
    /// A file has the name already.
    Exists,
    /// The handle isn't open, or isn't of this kind.
    BadHandle,
    /// An overwrite would go past the file's end.
    PastEnd,
    /// More bytes than a call or a file may have.
    TooBig,
    /// More than a transaction may store, make or have open.
    TooMuch,
    /// The desk has no word of this number.
    BadWord,
    /// The host failed behind so many bytes.
    Fault(u64),
    /// A name has 1 to 64 letters, digits, dots, underscores and dashes, and isn't of dots alone.
    BadName,
    /// 65,536 different names have been used.
    TooManyNames,
    /// A block within a block.
    Misplaced,
    /// There was no memory before the call was asked.
    NoMemory,
}

/// Why a body doesn't come to its commit. `?` hands it on.
#[derive(Clone, Copy, Debug, PartialEq, Eq)]
pub enum Stop {
    /// The attempt was rolled back: hand it on, and `run` runs the body again.
    Again,
    /// The body says: roll back.
    Abort,
    /// A call was refused, or there was no memory to begin. What the body doesn't take is rolled back.
    Refused(Refusal),
    /// `Desk::abort` ended the transaction.
    Cut,
    /// No transaction has begun: 10,000 entries wait for `Desk::hand_out`, those of active transactions among them. Run it again then.
    Full,
    /// The client begins no transaction any more: it tried as often as `Desk::open_with` allows.
    Ended,
}

/// Why there is no desk.
#[derive(Clone, Copy, Debug, PartialEq, Eq)]
pub enum NotOpened {
    /// The prologue is refused at this line, or a number is out of range.
    BadText { line: u32 },
    NoMemory,
}

/// What a read of a pipe finds: so many bytes, none yet, or none any more.
#[derive(Clone, Copy, Debug, PartialEq, Eq)]
pub enum Taken {
    Bytes(usize),
    Empty,
    End,
}

/// What a late call gives: it is done at the commit.
#[derive(Clone, Copy, Debug, PartialEq, Eq)]
pub struct Late;

/// What a call said: the kind of its reply, its value, and the second handle of a pair.
#[derive(Clone, Copy, Default)]
struct Said {
    kind: u32,
    value: u64,
    other: u64,
}

impl Said {
    /// The refusal of this kind of reply, as xcalls.h numbers them.
    fn refusal(self) -> Refusal {
        match self.kind {
            10 => Refusal::NoName,
            11 => Refusal::Exists,
            12 => Refusal::BadHandle,
            13 => Refusal::PastEnd,
            14 => Refusal::TooBig,
            15 => Refusal::TooMuch,
            16 => Refusal::BadWord,
            _ => Refusal::Fault(self.value),
        }
    }
}

/// Words, files, pipes and pairs, and the clients that use them. Threads share it.
pub struct Desk {
    open: Mutex<c::Kept>,
    left: Condvar,
    /// Which clients are handed out.
    taken: Mutex<Vec<bool>>,
}

impl Desk {
    /// A desk of so many words and clients. The prologue has a script's lines `file`, `pipe`, `pair`, `fault` and `grain`.
    pub fn open(words: u32, clients: u32, prologue: &str) -> Result<Desk, NotOpened> {
        Desk::open_with(words, clients, u32::MAX, prologue)
    }

    /// The same, where a client begins no more after so many attempts at one transaction: one at least.
    pub fn open_with(words: u32, clients: u32, attempts: u32, prologue: &str) -> Result<Desk, NotOpened> {
        let mut open = c::Kept { at: std::ptr::null_mut() };
        let mut line = 0;
        match unsafe { c::xc_open_with(&mut open, words, clients, attempts, prologue.as_ptr(), prologue.len(), &mut line) } {
            c::OK => Ok(Desk { open: Mutex::new(open), left: Condvar::new(), taken: Mutex::new(vec![false; clients as usize]) }),
            c::BAD_TEXT => Err(NotOpened::BadText { line }),
            _ => Err(NotOpened::NoMemory),
        }
    }

    /// The client of a number, from 1 on; none where it isn't there, or is in use. It is given back when it is dropped.
    pub fn client(&self, number: u32) -> Option<Client<'_>> {
        let mut taken = self.taken.lock().unwrap_or_else(|broken| broken.into_inner());
        let place = taken.get_mut((number as usize).checked_sub(1)?)?;
        (!std::mem::replace(place, true)).then(|| Client { desk: self, number, by_one: PhantomData })
    }

    /// Rolls back the transaction of a client, by any thread; its body hears `Stop::Cut`. Whether it had one.
    pub fn abort(&self, number: u32) -> bool {
        self.enter(|desk| unsafe { c::xc_abort(desk, number) }) == c::ABORTED
    }

    /// Hands out the journal: the entries that it didn't hand out before, as a run prints them. The desk goes on, and holds them no more.
    pub fn hand_out(&self) -> Result<String, Refusal> {
        self.text(|desk, text, length| unsafe { c::xc_hand_out(desk, text, length) })
    }

    /// Closes the desk. The last text of the run: the entries that weren't handed out, and how it ended. Behind the texts of `hand_out` it
    /// is what a script's run prints.
    pub fn finish(self) -> Result<String, Refusal> {
        self.text(|desk, text, length| unsafe { c::xc_finish(desk, text, length) })
    }

    /// A text that a call keeps.
    fn text(&self, keep: impl FnOnce(*mut c::Kept, *mut c::Kept, *mut usize) -> i32) -> Result<String, Refusal> {
        let mut text = c::Kept { at: std::ptr::null_mut() };
        let mut length = 0;
        if self.enter(|desk| keep(desk, &mut text, &mut length)) != c::OK {
            return Err(Refusal::NoMemory);
        }
        let (mut bytes, mut copied) = (vec![0; length], 0);
        unsafe { c::xc_copy_text(&mut text, 0, bytes.as_mut_ptr(), length, &mut copied) };
        unsafe { c::xc_free_text(&mut text) };
        String::from_utf8(bytes).map_err(|_| Refusal::NoMemory)
    }

    fn lock(&self) -> MutexGuard<'_, c::Kept> {
        self.open.lock().unwrap_or_else(|broken| broken.into_inner())
    }

    /// One call under the mutex. It wakes those that wait: it may have ended a transaction.
    fn enter(&self, call: impl FnOnce(*mut c::Kept) -> i32) -> i32 {
        let code = call(&mut *self.lock());
        self.left.notify_all();
        code
    }

    /// Begins a transaction as soon as it may.
    fn begin(&self, client: u32) -> Result<(), Stop> {
        let mut desk = self.lock();
        loop {
            match unsafe { c::xc_begin(&mut *desk, client) } {
                c::OK => return Ok(()),
                c::WAIT => desk = self.left.wait(desk).unwrap_or_else(|broken| broken.into_inner()),
                c::NO_MEMORY => return Err(Stop::Refused(Refusal::NoMemory)),
                c::FULL => return Err(Stop::Full),
                _ => return Err(Stop::Ended),
            }
        }
    }
}

const _: fn() = || {
    fn is_shared<T: Send + Sync>() {}
    is_shared::<Desk>();
};

impl Drop for Desk {
    fn drop(&mut self) {
        unsafe { c::xc_close(&mut *self.lock()) };
    }
}

/// A client of a desk. One thread uses it at a time.
pub struct Client<'d> {
    desk: &'d Desk,
    number: u32,
    by_one: PhantomData<Cell<()>>,
}

impl Client<'_> {
    /// Its number, for `Desk::abort`.
    pub fn number(&self) -> u32 {
        self.number
    }

    /// Runs a body as a transaction, until it has committed, or ends otherwise. The body may run several times, so it changes nothing of its
    /// own but what it sets anew.
    pub fn run<T>(&mut self, mut body: impl FnMut(&Tx<'_>) -> Result<T, Stop>) -> Result<T, Stop> {
        loop {
            self.desk.begin(self.number)?;
            let tx = Tx { desk: self.desk, number: self.number, ends: Cell::new(true), again: Cell::new(false), by_one: PhantomData };
            match body(&tx).and_then(|found| tx.commit().map(|()| found)) {
                Err(Stop::Again) => {}
                done => return done,
            }
        }
    }
}

impl Drop for Client<'_> {
    fn drop(&mut self) {
        let mut taken = self.desk.taken.lock().unwrap_or_else(|broken| broken.into_inner());
        taken[self.number as usize - 1] = false;
    }
}

/// A transaction that runs. Whatever way its body ends without a commit, also by a panic, it is rolled back.
pub struct Tx<'d> {
    desk: &'d Desk,
    number: u32,
    /// Whether no commit was asked yet. An abort of a transaction that is gone changes nothing.
    ends: Cell<bool>,
    /// Whether a call said that the attempt was rolled back: also that of a handle that was dropped, which hands nothing on.
    again: Cell<bool>,
    by_one: PhantomData<*mut ()>,
}

impl Drop for Tx<'_> {
    fn drop(&mut self) {
        if self.ends.get() {
            self.desk.enter(|desk| unsafe { c::xc_abort(desk, self.number) });
        }
    }
}

impl Tx<'_> {
    fn commit(&self) -> Result<(), Stop> {
        self.ends.set(false);
        match self.desk.enter(|desk| unsafe { c::xc_commit(desk, self.number) }) {
            c::OK => Ok(()),
            c::AGAIN => Err(Stop::Again),
            _ => Err(self.gone()),
        }
    }

    /// Why there is no transaction any more.
    fn gone(&self) -> Stop {
        if self.again.get() { Stop::Again } else { Stop::Cut }
    }

    /// Makes a call, and says how it was answered.
    fn call(&self, call: impl FnOnce(*mut c::Kept, u32, &mut Said) -> i32) -> Result<Said, Stop> {
        let mut said = Said::default();
        match self.desk.enter(|desk| call(desk, self.number, &mut said)) {
            c::OK => Ok(said),
            c::AGAIN => {
                self.again.set(true);
                Err(Stop::Again)
            }
            c::REFUSED => Err(Stop::Refused(said.refusal())),
            c::BAD_NAME => Err(Stop::Refused(Refusal::BadName)),
            c::TOO_MANY_NAMES => Err(Stop::Refused(Refusal::TooManyNames)),
            c::MISPLACED => Err(Stop::Refused(Refusal::Misplaced)),
            c::NO_MEMORY => Err(Stop::Refused(Refusal::NoMemory)),
            c::NOT_BEGUN => Err(self.gone()),
            _ => Err(Stop::Ended),
        }
    }

    /// What a call has opened: it is closed when it is dropped.
    fn opened<Kind>(&self, handle: u64) -> Handle<'_, Kind> {
        Handle { tx: self, place: Place(handle as u16), closes: true, kind: PhantomData }
    }

    fn at<Kind>(&self, place: Place) -> Handle<'_, Kind> {
        Handle { tx: self, place, closes: false, kind: PhantomData }
    }

    pub fn load(&self, at: u64) -> Result<u64, Stop> {
        Ok(call!(self, xc_load, at)?.value)
    }

    pub fn store(&self, at: u64, number: u64) -> Result<(), Stop> {
        call!(self, xc_store, at, number).map(drop)
    }

    /// Opens a file at its start.
    pub fn open(&self, name: &str) -> Result<File<'_>, Stop> {
        Ok(self.opened(call!(self, xc_open_file, name.as_ptr(), name.len())?.value))
    }

    /// Makes an empty file, and opens it.
    pub fn create(&self, name: &str) -> Result<File<'_>, Stop> {
        Ok(self.opened(call!(self, xc_create, name.as_ptr(), name.len())?.value))
    }

    /// Takes a file's name away, at the commit.
    pub fn unlink(&self, name: &str) -> Result<Late, Stop> {
        call!(self, xc_unlink, name.as_ptr(), name.len()).map(|_| Late)
    }

    pub fn rename(&self, from: &str, to: &str) -> Result<(), Stop> {
        call!(self, xc_rename, from.as_ptr(), from.len(), to.as_ptr(), to.len()).map(drop)
    }

    pub fn make_pipe(&self) -> Result<Pipe<'_>, Stop> {
        Ok(self.opened(call!(self, xc_pipe)?.value))
    }

    /// Makes a pair: its two sides.
    pub fn make_pair(&self) -> Result<(Side<'_>, Side<'_>), Stop> {
        let said = self.call(|desk, client, said| unsafe { c::xc_pair(desk, client, &mut said.kind, &mut said.value, &mut said.other) })?;
        Ok((self.opened(said.value), self.opened(said.other)))
    }

    /// What is open at a place, and stays so but by `close`. The first places are those of the prologue's pipes and pairs, in their order.
    pub fn file_at(&self, place: Place) -> File<'_> {
        self.at(place)
    }

    pub fn pipe_at(&self, place: Place) -> Pipe<'_> {
        self.at(place)
    }

    pub fn side_at(&self, place: Place) -> Side<'_> {
        self.at(place)
    }

    /// Runs an inner block. Where it ends by `Stop::Abort` or a refusal, what it did is undone, the transaction goes on, and there is no value.
    pub fn block<T>(&self, body: impl FnOnce(&Self) -> Result<T, Stop>) -> Result<Option<T>, Stop> {
        call!(self, xc_save)?;
        match body(self) {
            Ok(found) => call!(self, xc_keep).map(|_| Some(found)),
            Err(Stop::Abort | Stop::Refused(_)) => call!(self, xc_back).map(|_| None),
            Err(stop) => Err(stop),
        }
    }
}

/// A place of a client where something may stay open over transactions.
#[derive(Clone, Copy, Debug, PartialEq, Eq)]
pub struct Place(pub u16);

/// What is open at a handle. What the transaction opened itself is closed when it is dropped.
pub struct Handle<'t, Kind> {
    tx: &'t Tx<'t>,
    place: Place,
    closes: bool,
    kind: PhantomData<Kind>,
}

/// The kinds of handles.
pub mod kind {
    pub struct File;
    pub struct Pipe;
    pub struct Side;
}

pub type File<'t> = Handle<'t, kind::File>;
pub type Pipe<'t> = Handle<'t, kind::Pipe>;
/// A side of a pair.
pub type Side<'t> = Handle<'t, kind::Side>;

impl<Kind> Handle<'_, Kind> {
    pub fn close(mut self) -> Result<(), Stop> {
        self.closes = false;
        call!(self.tx, xc_close_handle, self.place.0).map(drop)
    }

    /// Leaves it open for later transactions.
    pub fn keep_open(mut self) -> Place {
        self.closes = false;
        self.place
    }
}

impl<Kind> Drop for Handle<'_, Kind> {
    fn drop(&mut self) {
        // Where the transaction goes on no more, its handles are gone already.
        if self.closes {
            let _ = call!(self.tx, xc_close_handle, self.place.0);
        }
    }
}

impl File<'_> {
    /// Reads from its position on: so many bytes, 0 at the file's end.
    pub fn read(&self, into: &mut [u8]) -> Result<usize, Stop> {
        let said = call!(self.tx, xc_read, self.place.0, into.as_mut_ptr(), into.len())?;
        Ok(if said.kind == c::END { 0 } else { said.value as usize })
    }

    /// All that is behind its position.
    pub fn read_all(&self) -> Result<Vec<u8>, Stop> {
        let (mut found, mut piece) = (Vec::new(), [0; c::MOST_CALL_BYTES]);
        loop {
            let count = self.read(&mut piece)?;
            found.extend_from_slice(&piece[..count]);
            if count == 0 {
                return Ok(found);
            }
        }
    }

    pub fn overwrite(&self, bytes: &[u8]) -> Result<(), Stop> {
        call!(self.tx, xc_overwrite, self.place.0, bytes.as_ptr(), bytes.len()).map(drop)
    }

    pub fn append(&self, bytes: &[u8]) -> Result<(), Stop> {
        call!(self.tx, xc_append, self.place.0, bytes.as_ptr(), bytes.len()).map(drop)
    }

    pub fn seek(&self, to: u64) -> Result<(), Stop> {
        call!(self.tx, xc_seek, self.place.0, to).map(drop)
    }

    pub fn length(&self) -> Result<u64, Stop> {
        Ok(call!(self.tx, xc_length, self.place.0)?.value)
    }

    pub fn sync(&self) -> Result<Late, Stop> {
        call!(self.tx, xc_sync, self.place.0).map(|_| Late)
    }
}

impl Pipe<'_> {
    pub fn read(&self, into: &mut [u8]) -> Result<Taken, Stop> {
        let said = call!(self.tx, xc_read_pipe, self.place.0, into.as_mut_ptr(), into.len())?;
        Ok(match said.kind {
            c::END => Taken::End,
            c::EMPTY => Taken::Empty,
            _ => Taken::Bytes(said.value as usize),
        })
    }

    pub fn write(&self, bytes: &[u8]) -> Result<Late, Stop> {
        call!(self.tx, xc_write_pipe, self.place.0, bytes.as_ptr(), bytes.len()).map(|_| Late)
    }

    pub fn shutdown(&self) -> Result<Late, Stop> {
        call!(self.tx, xc_shutdown, self.place.0).map(|_| Late)
    }
}

impl Side<'_> {
    /// The first message that waits for this side.
    pub fn receive(&self) -> Result<Option<Vec<u8>>, Stop> {
        let mut bytes = vec![0; c::MOST_CALL_BYTES];
        let said = call!(self.tx, xc_receive, self.place.0, bytes.as_mut_ptr(), bytes.len())?;
        bytes.truncate(said.value as usize);
        Ok((said.kind != c::END && said.kind != c::EMPTY).then_some(bytes))
    }

    pub fn send(&self, bytes: &[u8]) -> Result<Late, Stop> {
        call!(self.tx, xc_send, self.place.0, bytes.as_ptr(), bytes.len()).map(|_| Late)
    }

    pub fn shutdown(&self) -> Result<Late, Stop> {
        call!(self.tx, xc_shutdown, self.place.0).map(|_| Late)
    }
}
