//! Each kind of call, answer and end of examples/live/xcalls.rs, once. It prints the text of the run, and ends with status 101 if an answer
//! isn't the one that is due.
#![deny(warnings)]
#[path = "../../examples/live/xcalls.rs"]
mod xcalls;

use std::sync::mpsc::channel;
use std::thread;
use xcalls::{Client, Desk, NotOpened, Place, Refusal, Stop, Taken, Tx};

/// What a body was told of a call that is refused.
fn refusal<T>(said: Result<T, Stop>) -> Result<Refusal, Stop> {
    match said {
        Err(Stop::Refused(refusal)) => Ok(refusal),
        Err(stop) => Err(stop),
        Ok(_) => panic!("a call isn't refused"),
    }
}

fn files(tx: &Tx) -> Result<Place, Stop> {
    let file = tx.open("a")?;
    let mut piece = [0; 2];
    assert_eq!((file.read(&mut piece)?, &piece), (2, b"ab"));
    file.seek(1)?;
    file.overwrite(b"X")?;
    file.append(b"de")?;
    assert_eq!(file.length()?, 5);
    file.seek(0)?;
    assert_eq!(file.read_all()?, b"aXcde");
    assert_eq!(refusal(file.overwrite(b"past"))?, Refusal::PastEnd);
    assert_eq!(refusal(file.append(&[b'x'; 1025]))?, Refusal::TooBig);
    assert_eq!(refusal(tx.create("a"))?, Refusal::Exists);
    assert_eq!(refusal(tx.open("nobody"))?, Refusal::NoName);
    assert_eq!(refusal(tx.open(".."))?, Refusal::BadName);
    assert_eq!(refusal(tx.store(4, 1))?, Refusal::BadWord);
    assert_eq!(refusal(tx.pipe_at(Place(200)).read(&mut piece))?, Refusal::BadHandle);
    file.sync()?;
    file.close()?;
    tx.create("made")?.append(b"m")?;
    tx.rename("made", "renamed")?;
    tx.unlink("b")?;
    Ok(tx.open("renamed")?.keep_open())
}

fn channels(tx: &Tx) -> Result<(), Stop> {
    let (pipe, mut piece) = (tx.pipe_at(Place(0)), [0; 8]);
    assert_eq!((pipe.read(&mut piece)?, &piece[..2]), (Taken::Bytes(2), &b"in"[..]));
    assert_eq!(pipe.read(&mut piece)?, Taken::Empty);
    pipe.write(b"more")?;
    assert_eq!(tx.side_at(Place(2)).receive()?, None);
    tx.side_at(Place(1)).send(b"hello")?;
    let made = tx.make_pipe()?;
    made.shutdown()?;
    let (left, right) = tx.make_pair()?;
    left.send(b"none hears it")?;
    right.shutdown().map(drop)
}

fn what_was_sent(tx: &Tx) -> Result<(), Stop> {
    let mut piece = [0; 8];
    assert_eq!(tx.pipe_at(Place(0)).read(&mut piece)?, Taken::Bytes(4));
    assert_eq!(tx.side_at(Place(2)).receive()?.as_deref(), Some(&b"hello"[..]));
    Ok(())
}

fn blocks(tx: &Tx) -> Result<(), Stop> {
    tx.store(0, 1)?;
    assert_eq!(tx.block(|tx| tx.store(0, 2).and(Err::<(), _>(Stop::Abort)))?, None);
    assert_eq!(tx.load(0)?, 1);
    assert_eq!(tx.block(|tx| tx.store(1, 3).and(Ok("kept")))?, Some("kept"));
    assert_eq!(tx.block(|tx| refusal(tx.block(|_| Ok(()))))?, Some(Refusal::Misplaced));
    Ok(())
}

/// An older client holds a word; a younger one that needs it hears `Again`, and its body runs again.
fn one_gives_way(desk: &Desk, older: &mut Client) {
    let (tell, told) = channel();
    let (tell_back, told_back) = channel();
    thread::scope(|scope| {
        let younger = scope.spawn(move || {
            told.recv().expect("the older one began");
            let mut attempts = 0;
            let found = desk.client(2).expect("a client").run(|tx| {
                attempts += 1;
                let found = tx.load(3);
                let _ = tell_back.send(());
                found
            });
            (found, attempts)
        });
        let done = older.run(|tx| {
            tx.store(3, 7)?;
            let _ = tell.send(());
            told_back.recv().expect("the younger one asked");
            Ok(())
        });
        assert_eq!(done, Ok(()));
        assert_eq!(younger.join().expect("the younger one ends"), (Ok(7), 2));
    });
}

/// A transaction that falls silent is ended from outside.
fn one_is_cut(desk: &Desk, client: &mut Client) {
    let number = client.number();
    let done = client.run(|tx| {
        tx.store(2, 9)?;
        assert!(thread::scope(|scope| scope.spawn(|| desk.abort(number)).join()).expect("the other one ends"));
        tx.load(2)
    });
    assert_eq!((done, desk.abort(number)), (Err(Stop::Cut), false));
}

fn main() {
    assert_eq!(Desk::open(4, 2, "file\n").err(), Some(NotOpened::BadText { line: 1 }));
    assert_eq!(Desk::open_with(4, 2, 0, "").err(), Some(NotOpened::BadText { line: 0 }));
    let desk = Desk::open(4, 2, "file a \"abc\"\nfile b\npipe in \"in\"\npair left right\n").expect("a desk");
    let mut client = desk.client(1).expect("a client");
    assert!(desk.client(1).is_none() && desk.client(0).is_none() && desk.client(3).is_none());
    let place = client.run(files).expect("files");
    client.run(channels).expect("channels");
    client.run(what_was_sent).expect("what was sent");
    assert_eq!(client.run(|tx| tx.file_at(place).read_all()), Ok(b"m".to_vec()));
    print!("{}", desk.hand_out().expect("a text of what waits"));
    assert_eq!(desk.hand_out(), Ok(String::new()));
    client.run(blocks).expect("blocks");
    one_gives_way(&desk, &mut client);
    one_is_cut(&desk, &mut client);
    assert_eq!(client.run(|tx| tx.store(2, 5).and(Err::<(), _>(Stop::Abort))), Err(Stop::Abort));
    assert_eq!(client.run(|tx| tx.open("nobody").map(drop)), Err(Stop::Refused(Refusal::NoName)));
    assert_eq!(client.run(|tx| tx.load(2)), Ok(0));
    drop(client);
    assert!(desk.client(1).is_some());
    print!("{}", desk.finish().expect("a text"));
}
