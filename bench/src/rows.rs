//! The rows: for each, the port's call, the Rust's call, and the comparison of their answers.
use crate::{black_box, inputs, klem_bench_timed as timed, Kind, Row, Side};
use aml::{
    name_object::name_string,
    namespace::{AmlName, LevelType as AmlLevel, Namespace},
    parser::{Parser, Propagate},
    pkg_length::{pkg_length, PkgLength},
    term_object::term_list,
    value::{AmlValue, Args},
    AmlContext, DebugVerbosity, Handler, MethodContext,
};
use klem::{Ended, Frame, LevelType, Path, Table, Width};
use std::{fmt::Debug, rc::Rc};

struct NoHardware;
#[rustfmt::skip]
impl Handler for NoHardware {
    fn read_u8(&self, _: usize) -> u8 { 0 }
    fn read_u16(&self, _: usize) -> u16 { 0 }
    fn read_u32(&self, _: usize) -> u32 { 0 }
    fn read_u64(&self, _: usize) -> u64 { 0 }
    fn write_u8(&mut self, _: usize, _: u8) {}
    fn write_u16(&mut self, _: usize, _: u16) {}
    fn write_u32(&mut self, _: usize, _: u32) {}
    fn write_u64(&mut self, _: usize, _: u64) {}
    fn read_io_u8(&self, _: u16) -> u8 { 0 }
    fn read_io_u16(&self, _: u16) -> u16 { 0 }
    fn read_io_u32(&self, _: u16) -> u32 { 0 }
    fn write_io_u8(&self, _: u16, _: u8) {}
    fn write_io_u16(&self, _: u16, _: u16) {}
    fn write_io_u32(&self, _: u16, _: u32) {}
    fn read_pci_u8(&self, _: u16, _: u8, _: u8, _: u8, _: u16) -> u8 { 0 }
    fn read_pci_u16(&self, _: u16, _: u8, _: u8, _: u8, _: u16) -> u16 { 0 }
    fn read_pci_u32(&self, _: u16, _: u8, _: u8, _: u8, _: u16) -> u32 { 0 }
    fn write_pci_u8(&self, _: u16, _: u8, _: u8, _: u8, _: u16, _: u8) {}
    fn write_pci_u16(&self, _: u16, _: u8, _: u8, _: u8, _: u16, _: u16) {}
    fn write_pci_u32(&self, _: u16, _: u8, _: u8, _: u8, _: u16, _: u32) {}
}

fn context() -> AmlContext {
    AmlContext::new(Box::new(NoHardware), DebugVerbosity::None)
}

/// An answer is looked at where it is, and dropped, within the call's time.
#[inline(always)]
fn done<T>(answer: T) {
    black_box(&answer);
}

fn path(text: &str) -> Path {
    text.parse().unwrap_or_else(|e| panic!("{text}: {e}"))
}

fn name(text: &str) -> AmlName {
    AmlName::from_str(text).unwrap_or_else(|e| panic!("{text}: {e:?}"))
}

fn equal<T: PartialEq + Debug>(what: &dyn Debug, port: T, rust: T) -> Result<(), String> {
    if port == rust {
        Ok(())
    } else {
        Err(format!("{what:?}: port {port:?}, Rust {rust:?}"))
    }
}

pub fn rows() -> Vec<Row> {
    let mut rows = vec![package_lengths(), names(), text_read(), text_written(), normalised(), resolved(), built()];
    rows.extend(board());
    let sizes = [1, 4, 16, 64];
    rows.extend(sizes.map(checked));
    rows.extend(sizes.map(|kib| run(&format!("run a block of {kib} KiB"), vec![inputs::block_of(kib * 1024)], 64 / kib)));
    rows.push(run("run a loop of 100,000 turns", vec![inputs::turns(100_000)], 1));
    // the Rust has no 32 bits: it runs the same loop in 64, and comes to the same
    let narrow = run_at(Width::Bits32, "run the same loop at 32 bits (the Rust has 64 alone)", vec![inputs::turns(100_000)], 1);
    rows.push(Row { kind: Kind::Apart, ..narrow });
    rows.push(six_operators());
    rows.push(run("run short blocks (1 to 16 bytes)", inputs::short_blocks(), 2_400));
    rows.push(refused("run short blocks that both refuse (1 to 16 bytes)", inputs::short_faults(), 2_400));
    rows.push(refused("run a block of 64 KiB that both refuse at its end", vec![inputs::late_fault(65_536)], 1));
    rows.extend([8, 32, 100, 128].map(grown));
    rows.extend(images());
    rows.extend(beside());
    rows
}

/// A row whose inputs are only read: call `i` takes input `i`, around and around.
fn reading<P: 'static, R: 'static>(
    title: &str,
    calls: usize,
    port_inputs: Vec<P>,
    rust_inputs: Vec<R>,
    mut port: impl FnMut(&P) + 'static,
    mut rust: impl FnMut(&R) + 'static,
    same: impl FnMut() -> Result<usize, String> + 'static,
) -> Row {
    Row {
        name: title.into(),
        calls,
        inputs: port_inputs.len(),
        kind: Kind::Both,
        same: Box::new(same),
        port: Box::new(move |n| timed(&mut || port_inputs.iter().cycle().take(n).for_each(&mut port))),
        rust: Box::new(move |n| timed(&mut || rust_inputs.iter().cycle().take(n).for_each(&mut rust))),
    }
}

fn package_lengths() -> Row {
    let inputs = inputs::lengths();
    let check = inputs.clone();
    let mut c = context();
    reading(
        "package length",
        64_000,
        inputs.clone(),
        inputs,
        // both sides look at the same three numbers
        |b| match klem::pkg_length(black_box(b)) {
            Ok((p, used)) => done((p.raw_length, p.end_offset, used)),
            Err(e) => done(e),
        },
        move |b| match pkg_length().parse(black_box(b), &mut c) {
            Ok((rest, _, p)) => done((p.raw_length, p.end_offset, rest.len())),
            Err((_, _, e)) => done(e),
        },
        move || {
            let mut c = context();
            for b in &check {
                let (p, used) = klem::pkg_length(b).map_err(|e| e.to_string())?;
                let (rest, _, q) = pkg_length().parse(b, &mut c).map_err(|_| "the Rust refuses")?;
                equal(&&b[..4], (p.raw_length, p.end_offset, used), (q.raw_length as usize, q.end_offset as usize, b.len() - rest.len()))?;
            }
            Ok(check.len())
        },
    )
}

fn names() -> Row {
    let inputs = inputs::names();
    let check = inputs.clone();
    let mut c = context();
    reading(
        "name from bytes",
        24_000,
        inputs.clone(),
        inputs,
        |b| done(klem::name_string(black_box(b))),
        move |b| match name_string().parse(black_box(b), &mut c) {
            Ok((rest, _, p)) => done((p, rest.len())),
            Err((_, _, e)) => done(e),
        },
        move || {
            let mut c = context();
            for b in &check {
                let (p, used) = klem::name_string(b).map_err(|e| e.to_string())?;
                let (rest, _, q) = name_string().parse(b, &mut c).map_err(|_| "the Rust refuses")?;
                equal(b, (p.to_string(), used), (q.as_string(), b.len() - rest.len()))?;
            }
            Ok(check.len())
        },
    )
}

fn text_read() -> Row {
    reading(
        "path from text",
        24_000,
        inputs::TEXTS.to_vec(),
        inputs::TEXTS.to_vec(),
        |t| done(Path::from_text(black_box(t).as_bytes())),
        |t| done(AmlName::from_str(black_box(t))),
        || {
            for t in inputs::TEXTS {
                equal(&t, path(t).to_string(), name(t).as_string())?;
            }
            Ok(inputs::TEXTS.len())
        },
    )
}

fn text_written() -> Row {
    reading(
        "text from a path",
        24_000,
        inputs::TEXTS.map(path).to_vec(),
        inputs::TEXTS.map(name).to_vec(),
        |p| {
            let mut out = [0u8; Path::MOST_TEXT];
            done(black_box(p).write_text(&mut out));
            done(&out);
        },
        |p| done(black_box(p).as_string()),
        || {
            for t in inputs::TEXTS {
                equal(&t, path(t).text().as_str().to_string(), name(t).as_string())?;
            }
            Ok(inputs::TEXTS.len())
        },
    )
}

// The Rust takes the path by value: it is given copies that were made before.
fn normalised() -> Row {
    let (paths, names) = (inputs::BENT.map(path), inputs::BENT.map(name));
    Row {
        name: "normalise".into(),
        calls: 24_000,
        inputs: paths.len(),
        kind: Kind::Both,
        same: Box::new(|| {
            for t in inputs::BENT {
                equal(
                    &t,
                    path(t).normalize().map_err(|e| e.to_string())?.to_string(),
                    name(t).normalize().map_err(|e| format!("{e:?}"))?.as_string(),
                )?;
            }
            Ok(inputs::BENT.len())
        }),
        port: Box::new(move |n| timed(&mut || paths.iter().cycle().take(n).for_each(|p| done(black_box(p).normalize())))),
        rust: Box::new(move |n| {
            let mut given: Vec<AmlName> = names.iter().cycle().take(n).cloned().collect();
            timed(&mut || given.drain(..).for_each(|p| done(black_box(p).normalize())))
        }),
    }
}

fn resolved() -> Row {
    reading(
        "resolve against a scope",
        24_000,
        inputs::SEEN.map(|(p, s)| (path(p), path(s))).to_vec(),
        inputs::SEEN.map(|(p, s)| (name(p), name(s))).to_vec(),
        |(p, s)| done(black_box(p).resolve(black_box(s))),
        |(p, s)| done(black_box(p).resolve(black_box(s))),
        || {
            for (p, s) in inputs::SEEN {
                equal(
                    &(p, s),
                    path(p).resolve(&path(s)).map_err(|e| e.to_string())?.to_string(),
                    name(p).resolve(&name(s)).map_err(|e| format!("{e:?}"))?.as_string(),
                )?;
            }
            Ok(inputs::SEEN.len())
        },
    )
}

/// A board in both forms.
struct Board {
    levels: Vec<String>,
    values: Vec<(String, u64)>,
    table: Table,
    namespace: Namespace,
}

fn board_of(levels: Vec<String>) -> Board {
    let values = inputs::board_values(&levels);
    let (mut table, mut namespace) = (Table::new(), Namespace::new());
    for l in &levels {
        table.add_level(&path(l), LevelType::Device).unwrap_or_else(|e| panic!("{l}: {e}"));
        namespace.add_level(name(l), AmlLevel::Device).unwrap_or_else(|e| panic!("{l}: {e:?}"));
    }
    for (p, v) in &values {
        let h = table.add_value(&path(p), *v).unwrap_or_else(|e| panic!("{p}: {e}"));
        let k = namespace.add_value(name(p), AmlValue::Integer(*v)).unwrap_or_else(|e| panic!("{p}: {e:?}"));
        assert_eq!(h.0, k.0, "{p}");
    }
    Board { levels, values, table, namespace }
}

// Every value is found under its path with its number, on both sides.
fn same_board(b: &Board) -> Result<usize, String> {
    for (p, v) in &b.values {
        let h = b.table.get_handle(&path(p)).map_err(|e| e.to_string())?;
        let k = b.namespace.get_handle(&name(p)).map_err(|e| format!("{e:?}"))?;
        equal(p, h.0, k.0)?;
        equal(p, b.table.get(h).ok(), Some(*v))?;
        equal(p, b.namespace.get(k).ok().and_then(|v| v.as_integer(&context()).ok()), Some(*v))?;
    }
    Ok(b.values.len())
}

// A call is one edit: a fresh table, then 100 levels and 400 values, and again.
fn built() -> Row {
    let board = board_of(inputs::board_levels());
    let (levels, values) = (board.levels.clone(), board.values.clone());
    let (level_paths, level_names): (Vec<_>, Vec<_>) = levels.iter().map(|l| (path(l), name(l))).unzip();
    let (value_paths, value_names): (Vec<_>, Vec<_>) = values.iter().map(|(p, v)| ((path(p), *v), (name(p), *v))).unzip();
    let edits = levels.len() + values.len();
    let mut table = Table::new();
    Row {
        name: "build a namespace of 100 levels and 400 values, an edit".into(),
        calls: 6 * edits,
        inputs: edits,
        kind: Kind::Both,
        same: Box::new(move || same_board(&board)),
        port: Box::new(move |n| {
            timed(&mut || {
                for _ in 0..n / edits {
                    let _ = table.reset();
                    for p in &level_paths {
                        done(table.add_level(p, LevelType::Device));
                    }
                    for (p, v) in &value_paths {
                        done(table.add_value(p, *v));
                    }
                }
            })
        }),
        rust: Box::new(move |n| {
            let mut given: Vec<_> = (0..n / edits).map(|_| (level_names.clone(), value_names.clone())).collect();
            timed(&mut || {
                for (levels, values) in given.drain(..) {
                    let mut namespace = Namespace::new();
                    for p in levels {
                        done(namespace.add_level(p, AmlLevel::Device));
                    }
                    for (p, v) in values {
                        done(namespace.add_value(p, AmlValue::Integer(v)));
                    }
                    done(namespace);
                }
            })
        }),
    }
}

// One scope more is asked for each of the names, up to six; the same names on both sides.
fn searched(title: &str, calls: usize, board: Rc<Board>, names: Vec<String>) -> Row {
    let (scope, start) = (path(inputs::DEEPEST), name(inputs::DEEPEST));
    let (port_board, rust_board, same_board) = (board.clone(), board.clone(), board);
    let check = names.clone();
    reading(
        title,
        calls,
        names.iter().map(|n| path(n)).collect(),
        names.iter().map(|n| name(n)).collect(),
        move |p| done(port_board.table.search(black_box(p), &scope)),
        move |p| done(rust_board.namespace.search(black_box(p), &start)),
        move || {
            for (i, n) in check.iter().enumerate() {
                let found = same_board.table.search(&path(n), &path(inputs::DEEPEST)).map_err(|e| e.to_string())?;
                let (full, handle) = same_board.namespace.search(&name(n), &name(inputs::DEEPEST)).map_err(|e| format!("{e:?}"))?;
                equal(n, (found.path.to_string(), found.handle.0), (full.as_string(), handle.0))?;
                if check.len() == 6 {
                    equal(n, found.asked, i + 1)?;
                }
            }
            Ok(check.len())
        },
    )
}

fn board() -> Vec<Row> {
    let board = Rc::new(board_of(inputs::board_levels()));
    let names = inputs::board_searches(&board.levels);
    assert_eq!(names.len(), 6);
    let search = searched("search a bare segment from depth 6, 1 to 6 scopes asked", 3_000, board.clone(), names);
    let (port, rust, same) = (board.clone(), board.clone(), board.clone());
    let lookup = reading(
        "exact lookup, 400 values",
        4_000,
        board.values.iter().map(|(p, _)| path(p)).collect(),
        board.values.iter().map(|(p, _)| name(p)).collect(),
        move |p| done(port.table.get_handle(black_box(p))),
        move |p| done(rust.namespace.get_handle(black_box(p))),
        move || same_board(&same),
    );
    let (port, rust, same) = (board.clone(), board.clone(), board.clone());
    let get = reading(
        "object of a handle, 400 objects",
        4_000,
        (0..400).map(klem::Handle).collect(),
        (0..400).map(aml::namespace::AmlHandle).collect(),
        move |h| done(port.table.get(black_box(*h))),
        move |h| {
            if let Ok(AmlValue::Integer(n)) = rust.namespace.get(black_box(*h)) {
                done(*n);
            }
        },
        move || same_board(&same),
    );
    vec![search, lookup, get, listed(board)]
}

// The port lists the levels, the Rust walks them with `traverse`, from the root, and makes each one's name on the way.
fn listed(board: Rc<Board>) -> Row {
    let (mut walked, mut same) = (board.namespace.clone(), board.namespace.clone());
    let port = board.clone();
    reading(
        "list 101 levels from the root (the Rust: traverse)",
        500,
        vec![Path::root()],
        vec![()],
        move |p| port.table.levels(black_box(p)).into_iter().flatten().for_each(done),
        move |()| {
            done(walked.traverse(|name, level| {
                black_box((name, level.typ));
                Ok(true)
            }));
        },
        move || {
            let mut names = vec![];
            same.traverse(|name, _| {
                names.push(name.as_string());
                Ok(true)
            })
            .map_err(|e| format!("{e:?}"))?;
            let mut levels = board.table.levels(&Path::root()).map_err(|e| e.to_string())?;
            equal(&"levels", levels.len(), names.len())?;
            for name in &names {
                let level = levels.next().ok_or("a level is missing")?;
                let depth = if name == "\\" { 0 } else { name.matches('.').count() + 1 };
                equal(name, level.depth, depth)?;
                if depth > 0 {
                    equal(name, String::from_utf8_lossy(&level.segment).into_owned(), name[name.len() - 4..].to_string())?;
                }
            }
            Ok(1)
        },
    )
}

fn grown(n: usize) -> Row {
    let board = Rc::new(board_of(inputs::levels_of(n)));
    searched(&format!("the same search with {n} levels and {} values", 4 * (n - 1)), 3_000, board, (0..6).rev().map(inputs::own).collect())
}

// The largest image that there is: 127 levels, 512 bindings, 512 objects. The Rust has none.
fn images() -> [Row; 2] {
    let mut table = Table::new();
    let levels = inputs::levels_of(128);
    let mut values = inputs::board_values(&levels);
    values.extend((values.len() as u64..512).map(|i| (format!("\\V{i:03}"), i)));
    for l in &levels {
        table.add_level(&path(l), LevelType::Device).unwrap_or_else(|e| panic!("{l}: {e}"));
    }
    for (p, v) in &values {
        table.add_value(&path(p), *v).unwrap_or_else(|e| panic!("{p}: {e}"));
    }
    let mut room = [0; Table::IMAGE_BYTES];
    assert_eq!(table.image(&mut room), Ok(room.len()));
    let (image, saved, mut loaded) = (room, table.clone(), Table::new());
    let row = |what: &str, port| Row {
        name: format!("{what} of a full table, 7,599 bytes (the Rust has none)"),
        calls: 500,
        inputs: 1,
        kind: Kind::Port,
        same: Box::new({
            let saved = saved.clone();
            move || {
                let mut again = Table::new();
                again.load(&image).map_err(|e| e.to_string())?;
                equal(&"the image", again == saved, true).map(|()| 1)
            }
        }),
        port,
        rust: Box::new(|_| unreachable!("the port alone")),
    };
    let written: Side = Box::new(move |n| timed(&mut || (0..n).for_each(|_| done(table.image(black_box(&mut room))))));
    let read: Side = Box::new(move |n| timed(&mut || (0..n).for_each(|_| done(loaded.load(black_box(&image))))));
    [row("write the image", written), row("read the image", read)]
}

// What a lookup and the two searches take beside the test of memory: the test alone, and the calls, on the same boards. The port alone.
fn beside() -> Vec<Row> {
    let mut rows = vec![];
    for (title, levels, values) in inputs::boards() {
        let mut table = Table::new();
        for l in &levels {
            table.add_level(&path(l), LevelType::Device).unwrap_or_else(|e| panic!("{l}: {e}"));
        }
        for v in &values {
            table.add_value(&path(v), 7).unwrap_or_else(|e| panic!("{v}: {e}"));
        }
        let table = Rc::new(table);
        let scope = path(levels.iter().max_by_key(|l| l.len()).unwrap());
        let (sought, found) = (inputs::sought(&levels, &values), inputs::sought_levels(&levels));
        for n in &sought {
            table.search(&path(n), &scope).unwrap_or_else(|e| panic!("{title}: {n}: {e}"));
        }
        for n in &found {
            table.search_for_level(&path(n), &scope).unwrap_or_else(|e| panic!("{title}: {n}: {e}"));
        }
        let (t, values) = (table.clone(), values.iter().map(|v| path(v)).collect());
        rows.push(alone(format!("the test of memory, {title}"), vec![path("\\")], move |_| done(t.is_well_formed())));
        let t = table.clone();
        rows.push(alone(format!("an exact lookup, {title}"), values, move |p| done(t.get_handle(black_box(p)))));
        let (t, from) = (table.clone(), scope.clone());
        rows.push(alone(format!("a search of a value, {title}"), sought.iter().map(|n| path(n)).collect(), move |p| done(t.search(black_box(p), &from))));
        rows.push(alone(format!("a search of a level, {title}"), found.iter().map(|n| path(n)).collect(), move |p| done(table.search_for_level(black_box(p), &scope))));
    }
    rows
}

fn alone(name: String, inputs: Vec<Path>, mut port: impl FnMut(&Path) + 'static) -> Row {
    Row {
        name,
        calls: 3_000,
        inputs: inputs.len(),
        kind: Kind::Alone,
        same: Box::new(|| Ok(0)),
        port: Box::new(move |n| timed(&mut || inputs.iter().cycle().take(n).for_each(&mut port))),
        rust: Box::new(|_| unreachable!("the port alone")),
    }
}

type Cells = Vec<Option<u64>>;

fn port_run(width: Width, block: &[u8]) -> (String, Cells) {
    let mut frame = Frame::new(width);
    let end = match klem::run(block, &mut frame, u64::MAX).end {
        Ok(Ended::Finished) => "finished".into(),
        Ok(Ended::Returned(n)) => format!("returned {n}"),
        other => format!("{other:?}"),
    };
    (end, (0..15).map(|c| frame.get(c).ok()).collect())
}

// One context serves all runs: to make one for each would count the predefined objects of aml's namespace as part of a run.
fn rust_run(block: &[u8], c: &mut AmlContext) -> (String, Cells) {
    c.method_context = Some(MethodContext::new(Args::EMPTY));
    let end = match term_list(PkgLength::from_raw_length(block, block.len() as u32).unwrap()).parse(block, c) {
        Ok(_) => "finished".into(),
        Err((_, c, Propagate::Return(v))) => format!("returned {:?}", v.as_integer(c)).replace("Ok(", "").replace(')', ""),
        Err((_, _, Propagate::Err(e))) => format!("{e:?}"),
        Err(_) => "break or continue".into(),
    };
    let m = c.method_context.as_ref().unwrap();
    (end, m.locals.iter().chain(m.args.0.iter()).map(|v| v.as_ref().and_then(|v| v.as_integer(c).ok())).collect())
}

fn same_run(width: Width, blocks: &[Vec<u8>]) -> Result<usize, String> {
    let mut c = context();
    for b in blocks {
        equal(&&b[..b.len().min(16)], port_run(width, b), rust_run(b, &mut c))?;
    }
    Ok(blocks.len())
}

fn rust_runs() -> impl FnMut(&Vec<u8>) {
    let mut c = context();
    move |b| {
        c.method_context = Some(MethodContext::new(Args::EMPTY));
        match term_list(PkgLength::from_raw_length(b, b.len() as u32).unwrap()).parse(black_box(b), &mut c) {
            Ok(_) => (),
            Err((_, _, e)) => done(e),
        }
    }
}

fn port_runs(width: Width) -> impl FnMut(&Vec<u8>) {
    move |b| {
        let mut frame = Frame::new(width);
        done(klem::run(black_box(b), &mut frame, u64::MAX));
        done(&frame);
    }
}

fn run(title: &str, blocks: Vec<Vec<u8>>, calls: usize) -> Row {
    run_at(Width::Bits64, title, blocks, calls)
}

// The Rust has none of the six: its loop has Add and And where the port's has them.
fn six_operators() -> Row {
    let block = |added| vec![inputs::six_operators(10_000, added)];
    let title = "run a loop of 10,000 turns with R-7's six operators (the Rust: Add and And)";
    let row = reading(title, 1, block(true), block(false), port_runs(Width::Bits64), rust_runs(), || {
        same_run(Width::Bits64, &[inputs::six_operators(10, false)])
    });
    Row { kind: Kind::Apart, ..row }
}

fn run_at(width: Width, title: &str, blocks: Vec<Vec<u8>>, calls: usize) -> Row {
    let check = blocks.clone();
    reading(title, calls, blocks.clone(), blocks, port_runs(width), rust_runs(), move || same_run(width, &check))
}

// The port checks the block and runs none of it; the Rust runs it as far as the fault. Both give the same refusal.
fn refused(title: &str, blocks: Vec<Vec<u8>>, calls: usize) -> Row {
    let check = blocks.clone();
    reading(title, calls, blocks.clone(), blocks, port_runs(Width::Bits64), rust_runs(), move || {
        let mut c = context();
        for b in &check {
            let end = b[b.len().saturating_sub(16)..].to_vec();
            let port = klem::check(b).err().ok_or(format!("{end:?}: the check accepts it"))?;
            equal(&end, klem::run(b, &mut Frame::new(Width::Bits64), u64::MAX).end, Err(port))?;
            let kind = match port.number() {
                1 => "UnexpectedEndOfStream",
                2 => "InvalidPkgLength",
                3 => "UnexpectedByte",
                _ => "no fault of the Rust's",
            };
            equal(&end, kind.to_string(), rust_run(b, &mut c).0.split('(').next().unwrap_or_default().to_string())?;
        }
        Ok(check.len())
    })
}

// The Rust has no check: it finds a fault only where it runs into one. So it runs the block, which is all that it can do.
fn checked(kib: usize) -> Row {
    let block = inputs::block_of(kib * 1024);
    let check = vec![block.clone()];
    let row = reading(
        &format!("check a block of {kib} KiB (the Rust has no check: it runs it)"),
        64 / kib,
        vec![block.clone()],
        vec![block],
        |b| done(klem::check(black_box(b))),
        rust_runs(),
        move || {
            klem::check(&check[0]).map_err(|e| e.to_string())?;
            same_run(Width::Bits64, &check)
        },
    );
    Row { kind: Kind::Apart, ..row }
}
