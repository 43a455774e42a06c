//! A bank's story: a deposit, and a balance that reads what it stored before it is committed.
use sgt::{BatchOutcome, Cause, Engine, Error, Event, Fault, LEAST, Reply, Row};

fn show(reply: Reply) {
    match reply {
        Reply::Started(tid) => println!("started {tid}"),
        Reply::Looked { table, number, value: Some(value) } => println!("read {table}/{number} {value}"),
        Reply::Wrote { table, number, value: Some(value) } => println!("wrote {table}/{number} {value}"),
        Reply::Waits(tid) => println!("waits {tid}"),
        Reply::Committed(answers) => println!("committed {}", answers[0]),
        other => println!("{other:?}"),
    }
}

fn main() -> Result<(), Error> {
    let mut engine = Engine::open(r#"{"limits":[8,100],"accounts":[[1,101,500,1000]],"procedures":[]}"#)?;
    show(engine.start(1, &[1, 100])?);
    for _ in 0..3 {
        show(engine.step(0)?);
    }
    show(engine.start(0, &[1])?);
    for _ in 0..3 {
        show(engine.step(1)?);
    }
    show(engine.commit(1)?); // waits: it has read from the deposit
    show(engine.commit(0)?);
    show(engine.commit(1)?);
    println!("2/101 {}", engine.get(2, 101)?.unwrap_or(0));
    println!("{} entries", engine.entries());
    engine.reserve(100)?;
    if let Some((Event::Commit(tid), reply)) = engine.entry(8) {
        print!("entry 8: commit of {tid}, ");
        show(reply);
    }
    assert_eq!(engine.entry(11), None);
    let (calls, next) = engine.calls(0, 9)?.expect("there is a history");
    assert_eq!((calls.len(), next), (2, engine.entries()));
    assert_eq!((calls[1].procedure, &calls[1].args, &calls[1].reported), (0, &vec![1], &Ok(vec![1600])));
    assert_eq!(engine.calls(next + 1, 9)?, None);
    let mut rows = engine.rows(0, LEAST)?;
    for Row { table, number, value } in &rows {
        println!("{table}/{number} {value}");
    }
    rows[2].value = 7; // a new engine with these rows, one of them changed
    let mut again = Engine::open_with(r#"{"limits":[8,100],"accounts":[],"procedures":[]}"#, &rows)?;
    println!("again {} rows, 2/101 {}", again.rows(0, LEAST)?.len(), again.get(2, 101)?.unwrap_or(0));
    again.run(1, &[1, 100])?; // each in one call
    again.run(1, &[1, 100])?;
    let (tid, reply) = again.run(0, &[1])?;
    print!("ran {}: ", tid.unwrap_or(0));
    show(reply.clone());
    println!("{reply}");
    again.start(0, &[1])?;
    match again.cut() {
        Err(Error::StillLive(live)) => println!("{live} live"),
        other => panic!("{other:?}"),
    }
    again.quit(tid.unwrap_or(0) + 1)?;
    again.cut()?;
    println!("{} entries, 2/101 {}", again.entries(), again.get(2, 101)?.unwrap_or(0));
    let own = [Row { table: 7, number: 1, value: 40 }];
    again.put(&own)?; // one more record and procedure, while the history is empty
    if let Err(Error::Taken(at)) = again.put(&own) {
        println!("row {at} taken");
    }
    assert_eq!((again.records(), again.part()), (Ok(4), 1));
    let mut bare = Engine::open_bare(8, 100, true)?;
    assert_eq!((bare.records()?, bare.procedure(r#"[0,[["put",7,1,2]]]"#)?, bare.run(0, &[])?.0), (0, 0, Some(0)));
    let ran = bare.run_many(&[(0, vec![]), (9, vec![])]).map_err(|(_, error)| error)?;
    let committed = BatchOutcome { tid: Some(1), wrote: true, reply: Reply::Committed(vec![]) };
    assert_eq!(ran, [committed, BatchOutcome { tid: None, wrote: false, reply: Reply::NoProcedure }]);
    assert_eq!(bare.run_many(&[(0, vec![0; 5])]), Err((vec![], Error::BadCall)));
    let bare = Engine::open_bare(33, 100, true);
    assert_eq!(bare.err(), Some(Error::Opening { fault: Fault::BadLimits, explanation: None }));
    let flaw = again.procedure(r#"[0,[["ask",0]]]"#).unwrap_err();
    assert_eq!(flaw.to_string(), "procedure 5, at 1 0 1: code 0 is not from 1 to 999");
    assert!(matches!(flaw, Error::Opening { fault: Fault::ProcFlaw(5, 8), explanation: Some(_) }));
    let number = again.procedure(r#"[1,[["look",0,7,["arg",0],5],["answer",["reg",0]]]]"#)?;
    assert_eq!(again.procedure_text(number)?.as_deref(), Some(r#"[1,[["look",0,7,["arg",0],5],["answer",["reg",0]]]]"#));
    print!("procedure {number}: ");
    show(again.run(number, &[1])?.1);
    if again.put(&own) == Err(Error::Begun) {
        println!("begun");
    }
    if let Err(fault) = Engine::open(r#"{"limits":[8,100],"accounts":[],"procedures":[[0,[7]]]}"#) {
        println!("{fault}");
    }
    let aborted = Reply::Aborted { cause: Cause::Cycle(vec![1, 2]), fell: vec![3] };
    assert_eq!(aborted.to_string(), "aborted cycle 1 2 fell 3");
    let none = Reply::Wrote { table: 8, number: 0, value: Some(0) }; // there is no table 8, so the library has no text for it
    assert_eq!(none.to_string(), format!("{none:?}"));
    let refused = Engine::open(r#"{"limits":[99,1],"accounts":[],"procedures":[]}"#);
    assert!(matches!(refused.err(), Some(Error::Opening { fault: Fault::BadLimits, .. })));
    assert_eq!(Fault::ProcShape(5, vec![1, 0]).to_string(), "procedure 5 shape 1 0");
    let engine = std::sync::Mutex::new(engine);
    std::thread::scope(|scope| {
        scope.spawn(|| assert_eq!(engine.lock().unwrap().get(2, 101), Ok(Some(1100))));
    });
    Ok(())
}
