//! `vr simulate`: its nights are those of the independent model, its numbers add up,
//! and what it says of them is as expected.

mod common;
#[path = "common/reading.rs"]
mod reading;
#[path = "common/xml.rs"]
mod xml;

use std::fs;

use common::{full, vr, Folder, Said};
use model::{Model, Reply, Shape};
use reading::Json;
use traffic::SHAPES;
use ventorupo::{Form, TEN_BYTES};
use vr::simulate::desk::{Call, Desk, Left, Told, PLACE_BYTES};
use vr::simulate::plan::{Plan, BEAT, CREDIT, SLOTS};
use vr::simulate::{json, night, picture, proved, text, told, Both, Night, Port, Tick};
use xml::Element;

const HINT: &str = " (`vr help` tells the commands)";

/// The model as a desk.
#[derive(Clone)]
struct Modelled {
    model: Model,
    nodes: usize,
}

impl Modelled {
    fn new(plan: &Plan) -> Modelled {
        let shape = Shape {
            edition: plan.form.edition,
            ports: plan.form.ports,
            queues: plan.form.queues,
        };
        let settings = model::Settings::of(shape, plan.nodes, BEAT, SLOTS, CREDIT);
        let mut model = Model::new(model::size(&settings));
        assert_eq!(model.call(&model::Call::Setup(settings)), Reply::Done);
        Modelled {
            model,
            nodes: (plan.form.ports * plan.nodes) as usize,
        }
    }
}

fn as_models(call: &Call) -> model::Call {
    match call.clone() {
        Call::Map { id, port } => model::Call::Map { id, port },
        Call::Credit {
            port,
            queue,
            amount,
        } => model::Call::Credit {
            port,
            queue,
            amount,
        },
        Call::Arrive { port, header } => model::Call::Arrive { port, header },
        Call::Stitch { port } => model::Call::Stitch { port },
        Call::Prefetch { port, queue } => model::Call::Prefetch { port, queue },
    }
}

fn as_told(reply: Reply) -> Told {
    match reply {
        Reply::Refused(number) => Err(number.into()),
        Reply::Done => Ok(None),
        Reply::Entry(entry) => Ok(Some(entry)),
        Reply::Stitched(record) => Ok(Some(u16::from_be_bytes([record[0], record[1]]))),
        other => panic!("{other:?}"),
    }
}

impl Desk for Modelled {
    fn run(&mut self, calls: &[Call]) -> Result<Vec<Told>, u32> {
        let call = |call| as_told(self.model.call(&as_models(call)));
        Ok(calls.iter().map(call).collect())
    }

    fn timed_turn(&mut self, port: u32, now: u32) -> Result<Option<Left>, u32> {
        match self.model.call(&model::Call::TimedTurn { port, now }) {
            Reply::Idle => Ok(None),
            Reply::Leaves(packet, _) => Ok(Some(Left {
                entry: packet.entry,
                queue: packet.queue.into(),
                length: packet.length.into(),
                destination: packet.destination.into(),
                timestamp: packet.timestamp,
                transaction: packet.transaction.into(),
                price: packet.price,
            })),
            Reply::Refused(number) => Err(number.into()),
            other => panic!("{other:?}"),
        }
    }

    fn clear(&mut self, port: u32) -> Result<(), u32> {
        as_told(self.model.call(&model::Call::Clear { port })).map(drop)
    }

    fn report(&self, port: u32) -> Result<u32, u32> {
        let at = &self.model.ledger().unwrap().ports[port as usize];
        Ok(at.mark.into())
    }

    fn audit(&self) -> Result<Vec<u8>, u32> {
        let mut room = vec![0; PLACE_BYTES * self.nodes];
        self.model.audit(&mut room).map_err(u32::from)?;
        Ok(room)
    }

    fn bucket(&self, port: u32, bucket: u32) -> Result<u32, u32> {
        let at = &self.model.ledger().unwrap().ports[port as usize];
        Ok(at.buckets[bucket as usize])
    }
}

fn modelled(plan: &Plan) -> Night {
    let desk = Modelled::new(plan);
    night(plan, desk.clone(), desk).unwrap()
}

fn ten(ticks: u32) -> Plan {
    Plan::new(Form::TEN_BYTES, ticks)
}

/// Nights of every shape and many seeds, some of them with few nodes.
fn plans() -> Vec<Plan> {
    let shapes = SHAPES.iter().map(|shape| match shape.edition {
        TEN_BYTES => Form::TEN_BYTES,
        _ => Form::wide(shape.ports, shape.queues),
    });
    let of_shape = |form: Form| {
        let large = form.ports * form.queues > 200;
        let seeds = if large { 2 } else { 6 };
        (0..seeds).map(move |seed| Plan {
            seed,
            nodes: [32, 5, 1, 64][seed as usize % 4],
            liar: seed % form.ports,
            ..Plan::new(form, if large { 20 } else { 60 + 5 * seed })
        })
    };
    shapes.flat_map(of_shape).collect()
}

#[test]
fn nights_are_the_models() {
    for plan in plans() {
        let proved = proved(&plan).unwrap();
        assert_eq!(proved, modelled(&plan), "{plan:?}");
        adds_up(&proved);
    }
}

/// Nothing is lost, and every number is told alike wherever it is told.
fn adds_up(night: &Night) {
    let plan = &night.plan;
    let liar = plan.liar as usize;
    assert_eq!(night.ticks.len(), plan.ticks as usize);
    ports_add_up(night);
    let all = |of: fn(&Port) -> u64| night.ports.iter().map(of).sum::<u64>();
    let over = |of: fn(&Tick) -> u64| night.ticks.iter().map(of).sum::<u64>();
    assert_eq!(all(|port| port.home), all(|port| port.left.sum()));
    assert_eq!(all(|port| port.left.clock), over(|tick| tick.left.clock));
    assert_eq!(all(|port| port.left.above), over(|tick| tick.left.above));
    assert_eq!(all(|port| port.taken.clock), over(|tick| tick.taken.clock));
    assert_eq!(all(|port| port.taken.above), over(|tick| tick.taken.above));
    longest_waits_agree(night);
    let refused: u64 = night.ports[liar].refused.values().sum();
    assert_eq!(refused, over(|tick| tick.refused));
    assert_eq!(refused, night.beside.left_out);
    let elsewhere = all(|port| port.refused.values().sum()) - refused;
    assert_eq!(elsewhere, over(|tick| tick.refused_elsewhere));
    assert_eq!(
        over(|tick| tick.liars_clocks),
        night.ports[liar].taken.clock
    );
    assert_eq!(night.beside.audits, u64::from(2 * plan.ticks + 1));
    assert_eq!(night.beside.differs, None);
    halts_are_the_marks(night);
}

/// The longest wait of the ticks is that of the ports.
fn longest_waits_agree(night: &Night) {
    let clock = |longest: Both| longest.clock;
    let above = |longest: Both| longest.above;
    for of in [clock, above] {
        let ports = night.ports.iter().map(|port| of(port.longest)).max();
        let ticks = night.ticks.iter().map(|tick| of(tick.longest)).max();
        assert_eq!(ports, ticks);
    }
}

/// Of each port.
fn ports_add_up(night: &Night) {
    let plan = &night.plan;
    let nodes = u64::from(plan.nodes);
    for (number, port) in night.ports.iter().enumerate() {
        let inside = nodes - u64::from(port.free);
        assert_eq!(port.taken.sum(), port.home + inside, "port {number}");
        let counted: u64 = port.buckets.iter().map(|&count| u64::from(count)).sum();
        assert_eq!(counted, port.left.sum(), "port {number}");
        let fewest = night.ticks.iter().map(|tick| tick.free[number]).min();
        assert_eq!(fewest, Some(port.lowest));
        let at = night
            .ticks
            .iter()
            .position(|tick| tick.free[number] == port.lowest);
        assert_eq!(at.map(|at| at as u32 + 1), Some(port.lowest_at));
        // The longest wait is in the last bucket that counts something.
        let longest = port.longest.clock.max(port.longest.above);
        let last = port.buckets.iter().rposition(|&count| count > 0);
        let bucket = u64::BITS - longest.leading_zeros();
        assert_eq!(last.unwrap_or(0), bucket as usize);
        // An honest box has one clock packet a tick.
        assert_eq!(port.taken.clock + port.clocks_refused, plan.ticks.into());
    }
}

/// The halts tell of every tick what the liar's mark was; no other port has one.
fn halts_are_the_marks(night: &Night) {
    let liar = night.plan.liar as usize;
    for (tick, of) in (1..).zip(&night.ticks) {
        let halts = night.halts.iter();
        let its: Vec<u32> = halts
            .filter(|halt| (halt.from..=halt.to).contains(&tick))
            .map(|halt| halt.mark)
            .collect();
        let mark = of.marks[liar];
        assert_eq!(its, if mark == 0 { vec![] } else { vec![mark] });
        assert!([0, 7, 8].contains(&mark));
        assert_eq!(
            of.marks.iter().filter(|&&mark| mark != 0).count(),
            its.len()
        );
    }
}

/// What the night is to show, over many seeds: the liar is halted, by no lie of its
/// first third, and again after it was cleared too early; no pool of another port runs
/// dry, no header of theirs is refused, and all clock packets go on.
#[test]
fn the_story() {
    for seed in 0..40 {
        let plan = Plan { seed, ..ten(120) };
        let night = proved(&plan).unwrap();
        adds_up(&night);
        let liar = &night.ports[plan.liar as usize];
        let numbers: Vec<u32> = liar.refused.keys().copied().collect();
        assert_eq!(numbers, [7, 8, 9, 10, 19, 20], "seed {seed}");
        let third = plan.from + (plan.to - plan.from) / 3;
        let [first, second] = [night.halts[0], night.halts[1]];
        assert!(
            (third + 1..third + 6).contains(&first.from),
            "seed {seed}: {first:?}"
        );
        assert_eq!(first.to, 60);
        assert!((61..66).contains(&second.from), "seed {seed}: {second:?}");
        assert_eq!((second.to, night.halts.len()), (87, 2));
        others_go_on(&night);
        // The flood is seen in its own pool.
        assert!(liar.lowest < 12, "seed {seed}: {}", liar.lowest);
    }
}

/// No header of another port is refused, and no clock packet of any.
fn others_go_on(night: &Night) {
    let (liar, seed) = (night.plan.liar as usize, night.plan.seed);
    for (number, port) in night.ports.iter().enumerate() {
        let its = number == liar;
        assert_eq!(port.taken.clock, 120, "seed {seed}, port {number}");
        assert!(port.left.clock >= 119);
        assert_eq!(port.refused.is_empty(), !its);
        assert!(its || port.lowest >= 10, "seed {seed}, port {number}");
    }
}

/// A form without reserved bits, whose queues fill their field, has no such lies.
#[test]
fn lies_are_those_of_the_form() {
    let plan = Plan::new(Form::wide(8, 16), 120);
    let refused = &proved(&plan).unwrap().ports[1].refused;
    assert!(refused.keys().all(|number| [7, 8, 9, 10].contains(number)));
    assert!(refused.contains_key(&9) && refused.contains_key(&7));
}

/// A desk that answers a kind of call wrongly once an arrival was refused.
struct Faulty {
    desk: Modelled,
    wrong: &'static str,
    lied: bool,
}

impl Faulty {
    fn new(plan: &Plan, wrong: &'static str) -> Faulty {
        Faulty {
            desk: Modelled::new(plan),
            wrong,
            lied: false,
        }
    }

    fn is_wrong(&self, what: &str) -> bool {
        self.lied && self.wrong == what
    }
}

fn name(call: &Call) -> &'static str {
    match call {
        Call::Map { .. } | Call::Credit { .. } => "credit",
        Call::Arrive { .. } => "arrive",
        Call::Stitch { .. } => "stitch",
        Call::Prefetch { .. } => "prefetch",
    }
}

impl Desk for Faulty {
    fn run(&mut self, calls: &[Call]) -> Result<Vec<Told>, u32> {
        let mut told = self.desk.run(calls)?;
        if calls.last().map_or(false, |call| self.is_wrong(name(call))) {
            // At the last port, which is none that lies.
            *told.last_mut().unwrap() = Err(3);
        }
        let refused = told.iter().any(|told| [Err(7), Err(8)].contains(told));
        self.lied |= refused;
        Ok(told)
    }

    fn timed_turn(&mut self, port: u32, now: u32) -> Result<Option<Left>, u32> {
        let told = self.desk.timed_turn(port, now)?;
        Ok(told.filter(|_| !self.is_wrong("timed turn")))
    }

    fn clear(&mut self, port: u32) -> Result<(), u32> {
        self.desk.clear(port)
    }

    fn report(&self, port: u32) -> Result<u32, u32> {
        let mark = self.desk.report(port)?;
        Ok(if self.is_wrong("report") { 7 } else { mark })
    }

    fn audit(&self) -> Result<Vec<u8>, u32> {
        let mut places = self.desk.audit()?;
        places[7] ^= u8::from(self.is_wrong("audit"));
        Ok(places)
    }

    fn bucket(&self, port: u32, bucket: u32) -> Result<u32, u32> {
        let count = self.desk.bucket(port, bucket)?;
        Ok(count + u32::from(self.is_wrong("bucket")))
    }
}

/// The night beside it is no mere word: whichever call of another port a refused
/// arrival spoils, it is told, and the status says it.
#[test]
fn a_desk_that_a_liar_spoils_is_told() {
    let plan = ten(60);
    let kinds = [
        "credit",
        "arrive",
        "report",
        "stitch",
        "prefetch",
        "timed turn",
        "audit",
        "bucket",
    ];
    for wrong in kinds {
        let desk = || Faulty::new(&plan, wrong);
        let night = night(&plan, desk(), desk()).unwrap();
        let (tick, what) = night.beside.differs.expect(wrong);
        assert_eq!(what, wrong);
        assert!(tick > plan.from && tick <= plan.ticks);
        let answer = told(&night, false);
        let line = format!("in tick {tick} {what} told otherwise");
        assert!(
            answer.text.replace('\n', " ").contains(&line),
            "{}",
            answer.text
        );
        assert!(!answer.text.contains("answered the same"));
        assert_eq!(answer.status, 1);
        let answer = told(&night, true);
        let differs = Json::read(&answer.text).of("beside").of("differs").clone();
        assert_eq!(differs.of("tick").number(), tick.into());
        assert_eq!((differs.of("call").text(), answer.status), (wrong, 1));
    }
    let right = Faulty::new(&plan, "nothing");
    let night = night(&plan, right, Faulty::new(&plan, "nothing")).unwrap();
    assert_eq!(
        (night.beside.differs, told(&night, false).status),
        (None, 0)
    );
}

fn simulate(line: &str) -> Said {
    let words: Vec<&str> = line.split_whitespace().collect();
    vr(&[&["simulate"], &words[..]].concat())
}

/// As it stands in the folder of what is expected.
fn expected(name: &str, said: &str) {
    let path = format!("{}/tests/expected/{name}", env!("CARGO_MANIFEST_DIR"));
    assert_eq!(said, fs::read_to_string(&path).unwrap(), "{name}");
}

#[test]
fn nights_as_expected() {
    let folder = Folder::new("simulate-expected");
    for (name, line) in [
        ("simulate", ""),
        (
            "simulate-many",
            "--ports 12 --queues 20 --liar 11 --seed 7 --ticks=90",
        ),
        (
            "simulate-dry",
            "--nodes 3 --seed 0x5 --ticks 30 --from 3 --to 12 --clear 20",
        ),
        (
            "simulate-two",
            "--ports 2 --queues 2 --liar 0 --ticks 10 --from 10",
        ),
    ] {
        let new = folder.path(name);
        let said = simulate(&format!("{line} --svg {}", new.display()));
        assert_eq!(
            (said.status, said.err),
            (Some(0), format!("written: {}\n", new.display()))
        );
        assert!(
            said.out.lines().all(|line| line.chars().count() <= 80),
            "{}",
            said.out
        );
        expected(&format!("{name}.txt"), &said.out);
        expected(&format!("{name}.svg"), &fs::read_to_string(&new).unwrap());
        let said = simulate(&format!("--json {line}"));
        assert_eq!((said.status, said.err.as_str()), (Some(0), ""));
        expected(&format!("{name}.json"), &said.out);
    }
}

/// The same words, the same night; another seed, another.
#[test]
fn a_seed_decides() {
    let one = simulate("--seed 2");
    assert_eq!(one, simulate("--seed 0x2"));
    assert_ne!(
        one.out.replace("seed 2", "seed 3"),
        simulate("--seed 3").out
    );
}

fn numbers(json: &Json) -> Vec<u64> {
    json.elements().iter().map(Json::number).collect()
}

/// The JSON has the night's numbers.
#[test]
fn json_tells_the_night() {
    for plan in plans().iter().step_by(5) {
        let night = proved(plan).unwrap();
        let said = Json::read(&json(&night));
        json_tells_the_ticks(&night, &said);
        let totals = said.of("totals").elements();
        assert_eq!(totals.len(), night.ports.len());
        let ports = night.ports.iter().zip(totals);
        ports.for_each(|(port, total)| json_tells_the_port(port, total));
        let halts = said.of("halts").elements().iter();
        let halts = halts.map(|halt| ["by", "from", "to"].map(|of| halt.of(of).number()));
        let wanted = night.halts.iter();
        let wanted = wanted.map(|halt| [halt.mark, halt.from, halt.to].map(u64::from));
        assert!(halts.eq(wanted));
        let beside = ["headers_left_out", "calls_compared", "audits_compared"];
        let beside = beside.map(|name| said.of("beside").of(name).number());
        let its = &night.beside;
        assert_eq!(beside, [its.left_out, its.calls, its.audits]);
        assert_eq!(said.of("beside").of("differs"), &Json::Null);
    }
}

fn wide(numbers: &[u32]) -> Vec<u64> {
    numbers.iter().map(|&number| number.into()).collect()
}

fn json_tells_the_ticks(night: &Night, said: &Json) {
    for (i, tick) in night.ticks.iter().enumerate() {
        assert_eq!(numbers(&said.of("free").elements()[i]), wide(&tick.free));
        assert_eq!(numbers(&said.of("marks").elements()[i]), wide(&tick.marks));
        let at = |name: &str| numbers(said.of(name))[i];
        let Both { clock, above } = tick.taken;
        assert_eq!((at("taken_queue_0"), at("taken_above")), (clock, above));
        let Both { clock, above } = tick.left;
        assert_eq!((at("left_queue_0"), at("left_above")), (clock, above));
        let waited = ["longest_wait_queue_0", "longest_wait_above"].map(at);
        assert_eq!(waited, [tick.longest.clock, tick.longest.above]);
        let refused = (at("refused_liar"), at("refused_others"));
        assert_eq!(refused, (tick.refused, tick.refused_elsewhere));
        assert_eq!(at("taken_queue_0_liar"), tick.liars_clocks);
    }
}

fn json_tells_the_port(port: &Port, total: &Json) {
    let both = |name: &str| {
        let [clock, above] = ["queue_0", "above"].map(|of| total.of(name).of(of).number());
        Both { clock, above }
    };
    assert_eq!((both("taken"), both("left")), (port.taken, port.left));
    assert_eq!(both("longest_wait"), port.longest);
    assert_eq!(numbers(total.of("buckets")), wide(&port.buckets));
    let one = |name: &str| total.of(name).number();
    assert_eq!(
        (one("own_left"), one("free")),
        (port.home, port.free.into())
    );
    let fewest = ["fewest_free", "fewest_in_tick"].map(one);
    assert_eq!(fewest, [port.lowest, port.lowest_at].map(u64::from));
    assert_eq!(one("clocks_refused"), port.clocks_refused);
    for (number, &count) in &port.refused {
        let said = total.of("refused").of(&number.to_string());
        assert_eq!(said.number(), count);
    }
}

/// The table's rows are sums over their ticks, and the bars as long as they should be.
#[test]
fn the_table_tells_the_night() {
    let night = proved(&ten(120)).unwrap();
    let said = text(&night);
    let rows: Vec<&str> = said.lines().skip(5).take(12).collect();
    for (row, ticks) in rows.iter().zip(night.ticks.chunks(10)) {
        let cells: Vec<&str> = row.split_whitespace().collect();
        let read = |cell: &str| cell.parse::<u64>().unwrap();
        let last: Vec<u64> = cells[cells.len() - 6..]
            .iter()
            .map(|cell| read(cell))
            .collect();
        let sum = |of: fn(&Tick) -> u64| ticks.iter().map(of).sum::<u64>();
        let most = |of: fn(&Tick) -> u64| ticks.iter().map(of).max().unwrap();
        let wanted = [
            sum(|tick| tick.taken.sum()),
            sum(|tick| tick.refused + tick.refused_elsewhere),
            sum(|tick| tick.left.clock),
            sum(|tick| tick.left.above),
            most(|tick| tick.longest.clock),
            most(|tick| tick.longest.clock.max(tick.longest.above)),
        ];
        assert_eq!(last, wanted, "{row}");
        for port in 0..4 {
            let fewest = ticks.iter().map(|tick| tick.free[port]).min().unwrap();
            assert_eq!(read(cells[2 + 2 * port]), fewest.into(), "{row}");
            // Three columns for 32 nodes, to an eighth.
            let eighths = |c: char| 8 - (c as u32 - '█' as u32);
            let long: u32 = cells[1 + 2 * port].chars().map(eighths).sum();
            assert_eq!(long, fewest * 24 / 32, "{row}");
        }
    }
}

/// A port's row has its totals; waits from 16 ticks on are told together.
#[test]
fn a_ports_row_tells_its_night() {
    let mut night = proved(&ten(120)).unwrap();
    night.ports[3].buckets[5] = 1;
    night.ports[3].buckets[32] = 2;
    let said = text(&night);
    for (number, port) in night.ports.iter().enumerate() {
        let row = said.lines().nth(20 + number).unwrap();
        let cells = row.split([' ', ',']).filter(|cell| !cell.is_empty());
        let cells: Vec<u64> = cells.map(|cell| cell.parse().unwrap()).collect();
        let refused: u64 = port.refused.values().sum();
        let mut wanted = vec![number as u64, port.taken.clock, port.taken.above, refused];
        wanted.extend([port.lowest, port.lowest_at].map(u64::from));
        wanted.extend([port.left.clock, port.left.above]);
        wanted.extend(port.buckets[..5].iter().map(|&count| u64::from(count)));
        wanted.push(if number == 3 { 3 } else { 0 });
        assert_eq!(cells, wanted, "{row}");
    }
}

/// The picture is well formed, asks for nothing, and its lines are the pools'.
#[test]
fn the_picture_tells_the_night() {
    for plan in plans().iter().step_by(7) {
        let night = proved(plan).unwrap();
        let drawn = picture(&night);
        assert_eq!(drawn.matches("http").count(), 1);
        let svg = Element::read(&drawn);
        let known = ["svg", "title", "rect", "text", "g", "polyline"];
        let all = svg.all();
        assert!(all
            .iter()
            .all(|element| known.contains(&element.name.as_str())));
        let number = |text: &str| text.parse::<f64>().unwrap();
        let [wide, high] = ["width", "height"].map(|name| number(svg.of(name)));
        for element in all
            .iter()
            .filter(|element| element.attributes.contains_key("x"))
        {
            let side = |name| {
                element
                    .attributes
                    .get(name)
                    .map_or(0.0, |text| number(text))
            };
            assert!(side("x") + side("width") <= wide && side("y") + side("height") <= high);
        }
        // The liar's line is the last, and so above all others.
        let lines: Vec<&Element> = svg.named("polyline").collect();
        let order = (0..plan.form.ports).filter(|&port| port != plan.liar);
        let order: Vec<u32> = order.chain([plan.liar]).collect();
        assert_eq!(lines.len(), order.len());
        for (line, port) in lines.iter().zip(order) {
            assert_eq!(line.elements[0].text, format!("port {port}"));
            is_the_pool(&night, port as usize, line.of("points"));
        }
        bars_are_what_left(&night, &svg);
    }
}

/// Down from the top of the panel, 220 pixels for all nodes.
fn is_the_pool(night: &Night, port: usize, points: &str) {
    let points: Vec<(f64, f64)> = points
        .split(' ')
        .map(|point| point.split_once(',').unwrap())
        .map(|(x, y)| (x.parse().unwrap(), y.parse().unwrap()))
        .collect();
    assert_eq!(points.len(), night.ticks.len());
    let nodes = f64::from(night.plan.nodes);
    let (first, of_first) = (points[0].1, f64::from(night.ticks[0].free[port]));
    let bottom = first + of_first * 220.0 / nodes;
    for (i, ((x, y), tick)) in points.iter().zip(&night.ticks).enumerate() {
        let height = f64::from(tick.free[port]) * 220.0 / nodes;
        assert!((bottom - height - y).abs() < 0.3, "tick {i}: {y}");
        let middle = 60.0 + 720.0 * (i as f64 + 0.5) / night.ticks.len() as f64;
        assert!((x - middle).abs() < 0.2, "tick {i}: {x}");
    }
}

/// A number of a tick.
type Of = fn(&Tick) -> u64;

/// The groups of bars: what left above queue 0 and in it, how long it waited, and what
/// was refused.
fn bars_are_what_left(night: &Night, svg: &Element) {
    let groups: Vec<&Element> = svg.named("g").collect();
    let waited: Of = |tick| tick.longest.clock.max(tick.longest.above);
    let of: [(Of, f64, Of); 5] = [
        (|tick| tick.left.above, 110.0, |tick| tick.left.sum()),
        (|tick| tick.left.clock, 110.0, |tick| tick.left.sum()),
        (|tick| tick.longest.above, 80.0, waited),
        (|tick| tick.longest.clock, 80.0, waited),
        (|tick| tick.refused, 80.0, |tick| tick.refused),
    ];
    assert_eq!(groups.len(), of.len());
    for (group, (bar, high, whole)) in groups.iter().zip(of) {
        let most = night.ticks.iter().map(whole).max().unwrap().max(1);
        let ticks = night.ticks.iter().map(bar).filter(|&count| count > 0);
        let wanted: Vec<f64> = ticks
            .map(|count| count as f64 * high / most as f64)
            .collect();
        let heights = group
            .named("rect")
            .map(|rect| rect.of("height").parse::<f64>().unwrap());
        let heights: Vec<f64> = heights.collect();
        assert_eq!(heights.len(), wanted.len());
        let near = heights
            .iter()
            .zip(&wanted)
            .all(|(is, wanted)| (is - wanted).abs() < 0.3);
        assert!(near, "{heights:?}: {wanted:?}");
    }
}

#[test]
fn bad_uses() {
    let folder = Folder::new("simulate-bad");
    let new = folder.path("new");
    for (line, what) in [
        ("--ports", "--ports needs a number behind it, 2 to 32"),
        (
            "--ports 1",
            "--ports needs a number behind it, 2 to 32, not `1`",
        ),
        (
            "--ports 33",
            "--ports needs a number behind it, 2 to 32, not `33`",
        ),
        (
            "--queues=65",
            "--queues needs a number behind it, 2 to 64, not `65`",
        ),
        (
            "--nodes 0",
            "--nodes needs a number behind it, 1 to 2048, not `0`",
        ),
        (
            "--nodes 2049",
            "--nodes needs a number behind it, 1 to 2048, not `2049`",
        ),
        (
            "--seed -1",
            "--seed needs a number behind it, 0 to 4294967295, not `-1`",
        ),
        (
            "--ticks 9",
            "--ticks needs a number behind it, 10 to 999, not `9`",
        ),
        (
            "--ticks 1000",
            "--ticks needs a number behind it, 10 to 999, not `1000`",
        ),
        ("--liar 4", "--liar is 0 to 3 here, not 4"),
        ("--ports 2 --liar 2", "--liar is 0 to 1 here, not 2"),
        ("--from 121", "--from is 1 to 120 here, not 121"),
        ("--from 20 --to 19", "--to is 20 to 120 here, not 19"),
        ("--ticks 50 --clear 51", "--clear is 1 to 50 here, not 51"),
        ("--seed 1 --seed 1", "--seed is there twice"),
        ("--svg a --svg b", "--svg is there twice"),
        ("--svg", "--svg needs a name behind it"),
        ("--svg=a", "`--svg=a` is no option here; write `--svg a`"),
        (
            "--svg --json",
            "--svg needs a name behind it, not `--json`; for a file of that name write `./--json`",
        ),
        (
            "--json=1",
            "`--json=1` is no option here; for a file of that name write `./--json=1`",
        ),
        (
            "-o new",
            "`-o` is no option here; for a file of that name write `./-o`",
        ),
        ("image", "`image` is one word too many"),
    ] {
        let said = simulate(&format!("--svg {} {line}", new.display()));
        let said = if line.contains("--svg") {
            simulate(line)
        } else {
            said
        };
        assert_eq!(said.err, format!("vr: {what}{HINT}\n"), "{line}");
        assert_eq!((said.status, said.out.as_str()), (Some(2), ""));
        assert!(!new.exists());
    }
}

/// A picture is written to a new file alone, and before the night is driven it is said
/// that there is one; what is not written whole is not there.
#[test]
fn overwrites_nothing() {
    let folder = Folder::new("simulate-taken");
    let taken = folder.file("taken", b"mine");
    let said = simulate(&format!("--svg {}", taken.display()));
    let wanted = format!(
        "vr: {}: is there already, and vr overwrites nothing\n",
        taken.display()
    );
    assert_eq!(
        (said.status, said.err, said.out.as_str()),
        (Some(2), wanted, "")
    );
    assert_eq!(fs::read(&taken).unwrap(), b"mine");
    let nowhere = folder.path("no/such/folder");
    let said = simulate(&format!("--svg {}", nowhere.display()));
    let wanted = format!(
        "vr: {}: No such file or directory (os error 2)\n",
        nowhere.display()
    );
    assert_eq!(
        (said.status, said.err, said.out.as_str()),
        (Some(2), wanted, "")
    );
    if let Some(full) = full() {
        let new = folder.path("new");
        let mut vr = common::command();
        vr.args(["simulate", "--svg"]).arg(&new).stdout(full);
        let said = Said::from(vr.output().unwrap());
        let wanted = format!(
            "vr: standard output: No space left on device (os error 28); {} was written\n",
            new.display()
        );
        assert_eq!((said.status, said.err), (Some(2), wanted));
        let night = proved(&ten(120)).unwrap();
        assert_eq!(fs::read_to_string(&new).unwrap(), picture(&night));
    }
}
