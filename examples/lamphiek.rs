//! Lamphiek from Rust: the nine calls that are not of a day, and a reading through the three hosts in one process, as
//! one_process.c.
//!
//!     rustc -L crates/lamphiek/out -o target/from_rust examples/lamphiek.rs && target/from_rust E 202
use std::process::ExitCode;

const RANGE: Refused = 11;
const CURVE: u32 = 10;

#[repr(C)]
#[derive(Clone, Copy, Default)]
pub struct DealerShare {
    pub l1: u32,
    pub l2: u32,
}

#[repr(C)]
#[derive(Clone, Copy, Default)]
pub struct WorkerShare {
    pub m: u32,
    pub l: u32,
}

#[repr(C)]
#[derive(Clone, Copy, Default)]
pub struct Shares {
    pub host0: DealerShare,
    pub host1: WorkerShare,
    pub host2: WorkerShare,
}

#[repr(C)]
#[derive(Clone, Copy, Default)]
pub struct Counts {
    pub deals: u32,
    pub words: u32,
    pub a: u32,
    pub b: u32,
}

#[repr(C)]
#[derive(Clone, Copy, Default)]
pub struct Masks {
    pub l1: [u32; 16],
    pub l2: [u32; 16],
}

#[repr(C)]
#[derive(Clone, Copy, Default)]
pub struct State {
    pub m: [u32; 24],
    pub mask: [u32; 24],
    pub order: u32,
    pub turn: u32,
    pub used_a: u32,
    pub used_b: u32,
    pub used_deals: u32,
}

#[repr(C)]
#[derive(Clone, Copy, Default)]
pub struct Answer {
    pub number: u32,
    pub index: u32,
    pub count: u32,
    pub word: u32,
}

#[link(name = "lamphiek", kind = "static")]
unsafe extern "C" {
    fn lamphiek_split(reading: i64, l1: u32, l2: u32, shares: *mut Shares) -> u32;
    fn lamphiek_open(shares: *const Shares, value: *mut i64) -> u32;
    fn lamphiek_check(
        job: *const u32, job_words: usize, table: *const u32, table_words: usize, counts: *mut Counts,
    ) -> Answer;
    fn lamphiek_unused_a(
        job: *const u32, job_words: usize, table: *const u32, table_words: usize, a: *const u32, a_words: usize,
        number: *mut u32,
    ) -> usize;
    fn lamphiek_unused_b(
        job: *const u32, job_words: usize, table: *const u32, table_words: usize, b: *const u32, b_words: usize,
        number: *mut u32,
    ) -> usize;
    fn lamphiek_house(table: *mut u32);
    fn lamphiek_prepare(
        masks: *mut Masks, job: *const u32, job_words: usize, table: *const u32, table_words: usize, a: *const u32,
        a_words: usize, b: *const u32, b_words: usize, deals: *mut u32, deals_words: usize,
    ) -> Answer;
    fn lamphiek_start(
        state: *mut State, host: u32, job: *const u32, job_words: usize, table: *const u32, table_words: usize,
        masks: *const u32, masks_words: usize, deals: *const u32, deals_words: usize,
    ) -> Answer;
    fn lamphiek_hear(
        state: *mut State, host: u32, job: *const u32, job_words: usize, table: *const u32, table_words: usize,
        masks: *const u32, masks_words: usize, deals: *const u32, deals_words: usize, heard: u32,
    ) -> Answer;
}

/// The number of a refused call.
pub type Refused = u32;

fn completed<T>(number: u32, given: T) -> Result<T, Refused> {
    if number == 0 { Ok(given) } else { Err(number) }
}

/// The job and table that every host is lent. A slice gives what the header asks of a pointer and its count.
#[derive(Clone, Copy)]
pub struct Job<'a> {
    pub orders: &'a [u32],
    pub table: &'a [u32],
}

/// A worker with its mask list; host 1 has no deals.
#[derive(Clone, Copy)]
pub struct Worker<'a> {
    pub host: u32,
    pub job: Job<'a>,
    pub masks: &'a [u32],
    pub deals: &'a [u32],
}

pub fn split(reading: i64, l1: u32, l2: u32) -> Result<Shares, Refused> {
    let mut shares = Shares::default();
    completed(unsafe { lamphiek_split(reading, l1, l2, &mut shares) }, shares)
}

pub fn open(shares: &Shares) -> Result<i64, Refused> {
    let mut value = 0;
    completed(unsafe { lamphiek_open(shares, &mut value) }, value)
}

pub fn house() -> [u32; 16] {
    let mut table = [0; 16];
    unsafe { lamphiek_house(table.as_mut_ptr()) };
    table
}

impl Job<'_> {
    pub fn check(&self) -> Result<Counts, Refused> {
        let (mut counts, Job { orders, table }) = (Counts::default(), *self);
        let answer = unsafe { lamphiek_check(orders.as_ptr(), orders.len(), table.as_ptr(), table.len(), &mut counts) };
        completed(answer.number, counts)
    }

    /// The words of mask list A that the job leaves.
    pub fn unused_a<'m>(&self, a: &'m [u32]) -> Result<&'m [u32], Refused> {
        let (mut number, Job { orders, table }) = (0, *self);
        let (job, rows) = (orders.as_ptr(), table.as_ptr());
        let left = unsafe { lamphiek_unused_a(job, orders.len(), rows, table.len(), a.as_ptr(), a.len(), &mut number) };
        completed(number, &a[a.len() - left..])
    }

    /// The words of mask list B that the job leaves.
    pub fn unused_b<'m>(&self, b: &'m [u32]) -> Result<&'m [u32], Refused> {
        let (mut number, Job { orders, table }) = (0, *self);
        let (job, rows) = (orders.as_ptr(), table.as_ptr());
        let left = unsafe { lamphiek_unused_b(job, orders.len(), rows, table.len(), b.as_ptr(), b.len(), &mut number) };
        completed(number, &b[b.len() - left..])
    }

    pub fn prepare(&self, masks: &mut Masks, a: &[u32], b: &[u32], deals: &mut [u32]) -> Result<Answer, Refused> {
        let Job { orders, table } = *self;
        let answer = unsafe {
            lamphiek_prepare(
                masks, orders.as_ptr(), orders.len(), table.as_ptr(), table.len(), a.as_ptr(), a.len(), b.as_ptr(),
                b.len(), deals.as_mut_ptr(), deals.len(),
            )
        };
        completed(answer.number, answer)
    }
}

impl Worker<'_> {
    pub fn start(&self, state: &mut State) -> Result<Answer, Refused> {
        let Worker { host, job: Job { orders, table }, masks, deals } = *self;
        let answer = unsafe {
            lamphiek_start(
                state, host, orders.as_ptr(), orders.len(), table.as_ptr(), table.len(), masks.as_ptr(), masks.len(),
                deals.as_ptr(), deals.len(),
            )
        };
        completed(answer.number, answer)
    }

    pub fn hear(&self, state: &mut State, heard: u32) -> Result<Answer, Refused> {
        let Worker { host, job: Job { orders, table }, masks, deals } = *self;
        let answer = unsafe {
            lamphiek_hear(
                state, host, orders.as_ptr(), orders.len(), table.as_ptr(), table.len(), masks.as_ptr(), masks.len(),
                deals.as_ptr(), deals.len(), heard,
            )
        };
        completed(answer.number, answer)
    }
}

/// Masks that anybody can work out, for trials alone: word j is factor * j, and the job's begin at j = 2.
fn sample_list(factor: u32, count: u32) -> Vec<u32> {
    (2..2 + count).map(|j| factor.wrapping_mul(j)).collect()
}

/// Value, deals and words spoken, of one curve order on the house table.
fn curve(mode: u32, reading: i64) -> Result<(i64, u32, u32), Refused> {
    let (factor_a, factor_b, table) = (2654435769, 2246822519, house());
    let shares = split(reading, factor_a, factor_b)?;
    let job = Job { orders: &[CURVE, 0, 0, mode], table: &table };
    let counts = job.check()?;
    let (a, b) = (sample_list(factor_a, counts.a), sample_list(factor_b, counts.b));
    let mut deals = vec![0; counts.deals as usize];

    let (mut masks, mut one, mut two) = (Masks::default(), State::default(), State::default());
    (masks.l1[0], masks.l2[0]) = (shares.host0.l1, shares.host0.l2);
    (one.m[0], one.mask[0]) = (shares.host1.m, shares.host1.l);
    (two.m[0], two.mask[0]) = (shares.host2.m, shares.host2.l);
    let prepared = job.prepare(&mut masks, &a, &b, &mut deals)?;
    let host1 = Worker { host: 1, job, masks: &a, deals: &[] };
    let host2 = Worker { host: 2, job, masks: &b, deals: &deals };
    let (mut from1, mut from2) = (host1.start(&mut one)?, host2.start(&mut two)?);
    while one.order < 1 {
        (from1, from2) = (host1.hear(&mut one, from2.word)?, host2.hear(&mut two, from1.word)?);
    }

    let value = open(&Shares {
        host0: DealerShare { l1: masks.l1[0], l2: masks.l2[0] },
        host1: WorkerShare { m: one.m[0], l: one.mask[0] },
        host2: WorkerShare { m: two.m[0], l: two.mask[0] },
    })?;
    let spoken = from1.count + from2.count;
    assert_eq!((prepared.count, spoken), (counts.deals, counts.words), "the counts disagree");
    for s in [one, two] {
        let (used, need) = ((s.used_a, s.used_b, s.used_deals), (counts.a, counts.b, counts.deals));
        assert_eq!(used, need, "the stored places are not at the end");
    }
    assert!(job.unused_a(&a)?.is_empty() && job.unused_b(&b)?.is_empty(), "the lists have just what the job needs");
    Ok((value, prepared.count, spoken))
}

fn main() -> ExitCode {
    let arguments: Vec<String> = std::env::args().collect();
    let (mode, reading) = match arguments.get(1..) {
        Some([mode, reading]) if mode == "E" || mode == "S" => (mode, reading.parse::<i64>()),
        _ => return usage(),
    };
    let Ok(reading) = reading else { return usage() };
    match curve(u32::from(mode == "S"), reading) {
        Ok((value, deals, spoken)) => println!("{mode} {reading} {value} {deals} {spoken}"),
        Err(number) => {
            println!("refused {number}");
            return ExitCode::from(if number == RANGE { 0 } else { 3 }); // out of range is an answer like others
        }
    }
    ExitCode::SUCCESS
}

fn usage() -> ExitCode {
    eprintln!("usage: lamphiek E|S READING");
    ExitCode::from(2)
}
