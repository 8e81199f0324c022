//! Transfers between accounts, which are words, by four threads, as in bank.c. Each puts a line into a log before it looks whether there is
//! enough; where there isn't, its abort cuts the line off again.
#![deny(warnings)]
#[allow(dead_code)]
mod xcalls;

use std::thread;
use xcalls::{Client, Desk, Stop, Tx};

const THREADS: u32 = 4;
const TRANSFERS: u64 = 250;
const ACCOUNTS: u64 = 8;
const OPENING: u64 = 1000;

struct Transfer {
    from: u64,
    to: u64,
    amount: u64,
    name: String,
}

fn transfer(tx: &Tx, one: &Transfer) -> Result<(), Stop> {
    let from = tx.load(one.from)?;
    let log = tx.open("log")?;
    log.append(format!("{}: {} from {} to {}\n", one.name, one.amount, one.from, one.to).as_bytes())?;
    tx.store(one.from, from.checked_sub(one.amount).ok_or(Stop::Abort)?)?;
    tx.store(one.to, tx.load(one.to)? + one.amount)
}

/// The transfers of a thread: how many were done, and how many refused.
fn branch(desk: &Desk, number: u32) -> Result<(u64, u64), Stop> {
    let mut client = desk.client(number).ok_or(Stop::Ended)?;
    let (mut done, mut refused, mut seed) = (0, 0, 88_172_645_463_325_252 + u64::from(number));
    for at in 0..TRANSFERS {
        let from = draw(&mut seed) % ACCOUNTS;
        let to = (from + 1 + draw(&mut seed) % (ACCOUNTS - 1)) % ACCOUNTS;
        let one = Transfer { from, to, amount: 1 + draw(&mut seed) % 900, name: format!("{number}.{at}") };
        match client.run(|tx| transfer(tx, &one)) {
            Ok(()) => done += 1,
            Err(Stop::Abort) => refused += 1,
            Err(stop) => return Err(stop),
        }
    }
    Ok((done, refused))
}

fn draw(seed: &mut u64) -> u64 {
    *seed ^= *seed << 13;
    *seed ^= *seed >> 7;
    *seed ^= *seed << 17;
    *seed >> 11
}

/// The sum of the accounts.
fn sum(tx: &Tx) -> Result<u64, Stop> {
    (0..ACCOUNTS).try_fold(0, |sum, at| Ok(sum + tx.load(at)?))
}

/// The lines of the log. A transaction reads 16,384 bytes at most, so each reads 8 KiB.
fn lines(client: &mut Client) -> Result<u64, Stop> {
    let (mut lines, mut at) = (0, 0);
    loop {
        let bytes = client.run(|tx| {
            let (log, mut bytes) = (tx.open("log")?, vec![0; 8192]);
            log.seek(at)?;
            let mut length = 0;
            for piece in bytes.chunks_mut(1024) {
                length += log.read(piece)?;
            }
            bytes.truncate(length);
            Ok(bytes)
        })?;
        if bytes.is_empty() {
            return Ok(lines);
        }
        lines += bytes.iter().filter(|byte| **byte == b'\n').count() as u64;
        at += bytes.len() as u64;
    }
}

fn run() -> Result<bool, Stop> {
    let Ok(desk) = Desk::open(ACCOUNTS as u32, THREADS, "") else {
        return Err(Stop::Ended);
    };
    let first = || desk.client(1).ok_or(Stop::Ended);
    first()?.run(|tx| {
        for at in 0..ACCOUNTS {
            tx.store(at, OPENING)?;
        }
        tx.create("log").map(drop)
    })?;
    let ended: Vec<_> = thread::scope(|scope| {
        let threads: Vec<_> = (1..=THREADS).map(|number| scope.spawn({ let desk = &desk; move || branch(desk, number) })).collect();
        threads.into_iter().map(|one| one.join().unwrap_or(Err(Stop::Ended))).collect()
    });
    let (mut done, mut refused) = (0, 0);
    for one in ended {
        let (of_one, not) = one?;
        done += of_one;
        refused += not;
    }
    let sum = first()?.run(sum)?;
    let lines = lines(&mut first()?)?;
    let text = desk.finish().map_err(Stop::Refused)?;
    eprintln!("{done} done, {refused} refused, {}", text.lines().last().unwrap_or("no text"));
    println!("{} transfers ended\nsum {sum}\na line for each that was done: {}", done + refused, if lines == done { "yes" } else { "no" });
    Ok(sum == ACCOUNTS * OPENING && lines == done)
}

fn main() {
    match run() {
        Ok(true) => {}
        Ok(false) => std::process::exit(1),
        Err(stop) => {
            eprintln!("bank: {stop:?}");
            std::process::exit(2);
        }
    }
}
