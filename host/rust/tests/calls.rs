//! The wrapper over the archive: the worked traces with types, refusals, and stores that are lent and opened again.

use mapcache::{
    Answer, Cache, Evicted, GuestBlock, Inserted, Left, Pair, PhysicalBlock, Queue, Refusal, Reply, Request, Settings,
    in_calls, run, store_bytes,
};

fn pair(guest: u64, physical: u64) -> Pair {
    Pair { guest: GuestBlock(guest), physical: PhysicalBlock(physical) }
}

fn left(guest: u64, physical: u64, from: Queue) -> Option<Left> {
    Some(Left { pair: pair(guest, physical), from })
}

fn insert(guest: u64, physical: u64) -> Request {
    Request::Insert(GuestBlock(guest), PhysicalBlock(physical))
}

fn new(left: Option<Left>, pops: u64) -> Answer {
    Answer::Inserted(Inserted::New { left, pops })
}

fn found(physical: u64) -> Answer {
    Answer::Found(Some(PhysicalBlock(physical)))
}

#[test]
fn trace_a_in_one_call() {
    let mut cache = Cache::new(Settings::with_capacity(1)).unwrap();
    let answers = cache.run(&[insert(7, 70), insert(8, 80), insert(7, 71)]).unwrap();
    assert_eq!(answers, [new(None, 0), new(left(7, 70, Queue::Small), 1), new(left(8, 80, Queue::Small), 1)]);
}

#[test]
fn traces_b_to_e_over_calls() {
    let mut cache = Cache::new(Settings::with_capacity(2)).unwrap();
    let get = |guest| Request::Get(GuestBlock(guest));
    let answers = cache.run(&[insert(1, 10), get(1), insert(2, 20), insert(3, 30)]).unwrap();
    assert_eq!(answers, [new(None, 0), found(10), new(None, 0), new(left(2, 20, Queue::Small), 2)]);
    assert_eq!(cache.run(&[insert(2, 21)]).unwrap(), [new(left(3, 30, Queue::Small), 1)]);
    let answers = cache.run(&[get(1), get(1), get(1), get(1), get(2), insert(4, 40)]).unwrap();
    assert_eq!(answers, [found(10), found(10), found(10), found(10), found(21), new(left(2, 21, Queue::Main), 4)]);
    let evicted = cache.evict_one().unwrap();
    assert_eq!(evicted, Evicted { left: left(4, 40, Queue::Small), handed_back: Some(pair(1, 10)) });
    assert_eq!(evicted.pairs().collect::<Vec<_>>(), [pair(4, 40), pair(1, 10)]);
    assert_eq!(cache.evict_one().unwrap().pairs().count(), 0);
}

#[test]
fn one_request_at_a_time() {
    let mut cache = Cache::new(Settings::with_capacity(3)).unwrap();
    let (most_guest, most_physical) = (GuestBlock(u64::MAX), PhysicalBlock(u64::MAX));
    assert_eq!(cache.insert(GuestBlock(0), PhysicalBlock(0)).unwrap(), Inserted::New { left: None, pops: 0 });
    assert_eq!(cache.insert(most_guest, most_physical).unwrap().left(), None);
    assert_eq!(cache.insert(GuestBlock(0), PhysicalBlock(5)).unwrap(), Inserted::Replaced(PhysicalBlock(0)));
    assert_eq!(cache.peek(most_guest).unwrap(), Some(most_physical));
    assert_eq!(cache.get(GuestBlock(0)).unwrap(), Some(PhysicalBlock(5)));
    assert_eq!(cache.remove(GuestBlock(0)).unwrap(), Some(PhysicalBlock(5)));
    assert_eq!(cache.remove(GuestBlock(0)).unwrap(), None);
    cache.clear().unwrap();
    assert_eq!(cache.peek(most_guest).unwrap(), None);
}

#[test]
fn a_store_is_lent_and_opened_again() {
    let mut memory = vec![9; store_bytes() + 5];
    let mut cache = Cache::create(Settings::with_capacity(4), memory.as_mut_slice()).unwrap();
    let _ = cache.insert(GuestBlock(3), PhysicalBlock(33)).unwrap();
    drop(cache);
    assert_eq!(memory[store_bytes()..], [9; 5]);
    let mut again = Cache::open(memory).unwrap();
    assert_eq!(again.get(GuestBlock(3)).unwrap(), Some(PhysicalBlock(33)));
    assert_eq!(again.into_store().len(), store_bytes() + 5);
}

#[test]
fn settings_are_refused() {
    let refused =
        |capacity, small_ratio, ghost_ratio| Cache::new(Settings { capacity, small_ratio, ghost_ratio }).unwrap_err();
    assert_eq!(refused(0, 0.1, 0.9), Refusal::CapacityZero);
    assert_eq!(refused(1025, 0.1, 0.9), Refusal::CapacityLarge);
    assert_eq!(refused(1, f64::NAN, 0.9), Refusal::SmallRatio);
    assert_eq!(refused(1, -f64::from_bits(1), 0.9), Refusal::SmallRatio);
    assert_eq!(refused(1, 0.1, -f64::from_bits(1)), Refusal::GhostRatio);
    assert_eq!(refused(1024, 0.1, 1.00048828125), Refusal::GhostLimit);
    assert_eq!(Cache::create(Settings::with_capacity(1), [0; 64]).unwrap_err(), Refusal::StoreShort);
}

#[test]
fn negative_zero_is_zero() {
    let store =
        |small_ratio, ghost_ratio| Cache::new(Settings { capacity: 4, small_ratio, ghost_ratio }).unwrap().into_store();
    assert_eq!(store(-0.0, 0.9), store(0.0, 0.9));
    assert_eq!(store(0.1, -0.0), store(0.1, 0.0));
    assert_eq!(store(-0.0, -0.0), store(0.0, 0.0));
    assert_ne!(store(0.5, 0.9), store(0.0, 0.9));
    assert_ne!(store(0.1, 0.9), store(0.1, 0.0));
}

#[test]
fn calls_are_refused() {
    let mut store = Cache::new(Settings::with_capacity(2)).unwrap().into_store();
    let mut replies = [0xEE; 28];
    assert_eq!(run(&mut [], b"", &mut []), Err(Refusal::StoreShort));
    assert_eq!(run(&mut store, &[0; 32_769], &mut []), Err(Refusal::RequestsLong));
    assert_eq!(run(&mut store, b"CLXX", &mut replies), Err(Refusal::BadRecord { offset: 2 }));
    let mut request = Vec::new();
    insert(1, 10).write(&mut request);
    let refused = run(&mut store, &request, &mut replies[..27]).unwrap_err();
    assert_eq!((refused.number(), refused.detail()), (10, 28));
    assert_eq!(replies, [0xEE; 28]);
    assert_eq!(run(&mut store, &request, &mut replies), Ok(10));
    store[8 * 5] += 1; // one more in Small than there are
    assert_eq!(Cache::open(store).unwrap_err(), Refusal::StoreDamaged);
}

#[test]
fn requests_and_replies_are_read_as_they_are_written() {
    let (guest, physical) = (GuestBlock(7), PhysicalBlock(u64::MAX));
    let requests = [
        Request::Get(guest),
        Request::Peek(guest),
        Request::Remove(guest),
        insert(7, 70),
        Request::Evict,
        Request::Clear,
    ];
    for request in requests {
        let mut record = Vec::new();
        request.write(&mut record);
        assert_eq!((record.len(), Request::read(&record)), (request.bytes(), Some(request)));
        assert_eq!(Request::read(&record[..record.len() - 1]), None, "{request} cut short");
    }
    let replies = [
        Reply::Nothing,
        Reply::Hit(physical),
        Reply::Replaced(physical),
        Reply::New { pops: 3 },
        Reply::Gone(physical),
        Reply::HandedBack(pair(0, 5)),
        Reply::Done,
        Reply::LeftSmall(pair(1, 2)),
        Reply::LeftMain(pair(1, 2)),
    ];
    let mut bytes = Vec::new();
    replies.iter().for_each(|reply| reply.write(&mut bytes));
    assert_eq!(Reply::read_all(&bytes), Ok(replies.to_vec()));
    assert_eq!(Reply::read_all(&bytes[..bytes.len() - 1]), Err(bytes.len() - 18));
    assert_eq!(Reply::read_all(b"OKGT"), Err(2));
    let text: Vec<String> = replies.iter().map(Reply::to_string).collect();
    let most = u64::MAX;
    assert_eq!(text.join(", "), format!("MI, HI {most}, RE {most}, NW 3, GO {most}, EX 0 5, OK, ES 1 2, EM 1 2"));
    assert_eq!(requests.map(|request| request.to_string()), ["GT 7", "PK 7", "RM 7", "IN 7 70", "EV", "CL"]);
}

#[test]
fn many_requests_are_cut_into_calls() {
    let requests: Vec<Request> = (0..10_000).map(|n| insert(n % 50, n)).collect();
    let runs: Vec<&[Request]> = in_calls(&requests).collect();
    assert_eq!(runs.concat(), requests);
    assert_eq!(runs.len(), 6); // 1,820 inserts to a call
    let mut cache = Cache::new(Settings::with_capacity(50)).unwrap();
    assert_eq!(cache.run(&requests).unwrap_err(), Refusal::RequestsLong);
    let answers: usize = runs.iter().map(|run| cache.run(run).unwrap().len()).sum();
    assert_eq!(answers, requests.len());
    assert_eq!(in_calls(&[]).count(), 0);
}
