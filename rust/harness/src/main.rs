//! Lists of calls on the Rust and on the store, compared call by call. See README.md.
mod call;
mod compare;
mod differences;
mod judge;
mod lists;
mod machine;
mod mend;
mod record;
mod rust_side;
mod store_side;
mod view;

use call::List;

/// The Rust alone: the lists of the standard input, the answer and the state after each call.
fn run(mend: bool) {
    let text = std::io::read_to_string(std::io::stdin()).unwrap();
    for list in call::lists(&text) {
        show(&list, mend);
    }
}

fn show(list: &List, mending: bool) {
    println!("={:04X}", list.frames);
    let mut rust = rust_side::Rust::new(list.frames);
    for c in &list.calls {
        let k = judge::refusal(&rust, c);
        if k > 0 {
            println!("{} refused {k}", c.line());
            continue;
        }
        match rust.call(c) {
            None => {
                println!("{} not finished", c.line());
                return;
            }
            Some(a) => println!("{} {}", c.line(), call::hex(&a)),
        }
        let mut struck = mend::Struck::new();
        if mending {
            mend::mend(&rust, &mut struck);
            rust.frames.collect();
        }
        print!("{}", rust.view().0.text());
    }
}

/// Which blocks of a marked copy of the Rust (`RUST_MARKS`) the lists of the stock do not reach.
fn marks(depth: usize) {
    for list in lists::exhaustive(depth) {
        let mut alone = record::Alone::new(list.frames);
        for c in &list.calls {
            alone.step(c);
        }
    }
    let mut reached = 0;
    for line in kernel::marks::ALL.lines() {
        let n: usize = line.split(' ').next().unwrap().parse().unwrap();
        if kernel::marks::REACHED[n].load(std::sync::atomic::Ordering::Relaxed) {
            reached += 1;
        } else {
            println!("not reached: {}", line.split_once(' ').unwrap().1);
        }
    }
    println!("{reached} of {} blocks reached", kernel::marks::ALL.lines().count());
}

/// Both ways on the Rust alone: each call as it is and mended, from the same state. What differs must be a difference that struck.
fn alone(seeds: u64) {
    let mut tally = compare::Tally::default();
    for seed in 0..seeds {
        let list = lists::random(seed);
        let mut a = rust_side::Rust::new(list.frames);
        tally.lists += 1;
        for c in &list.calls {
            tally.calls += 1;
            let k = judge::refusal(&a, c);
            tally.refused[k as usize] += 1;
            if k > 0 {
                continue;
            }
            let saved = a.save();
            let plain = a.call(c);
            let mut struck = mend::Struck::new();
            let view = plain.as_ref().map(|_| {
                mend::mend(&a, &mut struck);
                a.frames.collect();
                a.view().0
            });
            if !matches!(c.bytes()[0], 3 | 5 | 7 | 9) {
                continue;
            }
            a.restore(&saved);
            let (answer, s) = mend::mended(&mut a, c);
            if answer != plain || Some(a.view().0) != view {
                tally.diverged += s.is_empty() as u64;
                tally.unfinished += plain.is_none() as u64;
                for i in s {
                    tally.struck[i as usize] += 1;
                }
            } else {
                tally.same += 1;
            }
        }
    }
    println!("{}", tally.text());
}

/// A program's input and what it must write.
fn keep(folder: &str, (lists, answers): (String, String)) {
    std::fs::write(format!("{folder}/stdin"), lists).unwrap();
    std::fs::write(format!("{folder}/stdout"), answers).unwrap();
}

fn done(same: bool) {
    if !same {
        std::process::exit(1);
    }
}

fn main() {
    // a call of the Rust that does not finish is no news; a fault of the harness is
    std::panic::set_hook(Box::new(|p| {
        if p.location().is_some_and(|l| l.file().starts_with("harness")) {
            eprintln!("{p}");
        }
    }));
    let args: Vec<String> = std::env::args().skip(1).collect();
    match args.iter().map(String::as_str).collect::<Vec<_>>()[..] {
        ["run"] => run(false),
        ["run", "mended"] => run(true),
        ["differences", program] => done(differences::show(program)),
        ["record", folder] => keep(folder, record::record()),
        ["record", folder, "random", first, n] => {
            let first: u64 = first.parse().unwrap();
            let seeds = first..first + n.parse::<u64>().unwrap();
            keep(folder, record::answers_to(lists::exhaustive(1).chain(seeds.map(lists::random))))
        }
        ["marks", depth] => marks(depth.parse().unwrap()),
        ["alone", n] => alone(n.parse().unwrap()),
        ["compare", program, "stock", depth] => {
            let depth = depth.parse().unwrap();
            done(store_side::report(program, "stock", store_side::run(program, lists::exhaustive(depth))))
        }
        ["compare", program, "random", first, n] => {
            let first: u64 = first.parse().unwrap();
            let seeds = first..first + n.parse::<u64>().unwrap();
            done(store_side::report(program, "random", store_side::run(program, seeds.map(lists::random))))
        }
        ["compare", program, "limits"] => {
            let all = vec![lists::slots(), differences::limit()];
            done(store_side::report(program, "limits", store_side::run(program, all.into_iter())))
        }
        ["compare", program, "file", file] => {
            let all = call::lists(&std::fs::read_to_string(file).unwrap());
            done(store_side::report(program, file, store_side::run(program, all.into_iter())))
        }
        _ => eprintln!("run | run mended | alone N | compare PROGRAM stock DEPTH | compare PROGRAM random FIRST COUNT | compare PROGRAM file FILE"),
    }
}
