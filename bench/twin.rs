// An unverified twin of the search in plain Rust: the same steps, bounds checked at run time, for comparing times.
// Build: rustc -O bench/twin.rs. Run in crates/bench/data, with the number of rounds as its argument.
use std::fs;
use std::time::Instant;

const MOST: usize = 12;
const PAIRS: usize = MOST * MOST;
const FAMILIES: [&str; 7] = ["tiny", "small", "town", "twelve", "dense", "odd", "equal"];

// crossing: a junction

#[derive(Clone, Copy)]
struct Stream {
    least: u8,
    comes: u8,
}

struct Junction {
    cycle: u8,
    count: usize,
    streams: [Stream; 12],
    table: [u8; 144],
}

impl Junction {
    fn row(&self, stream: usize) -> &[u8] {
        if stream < self.count {
            let start = stream * self.count;
            &self.table[start..start + self.count]
        } else {
            &[]
        }
    }

    fn clearing(&self, first: usize, next: usize) -> Option<u8> {
        self.row(first).get(next).and_then(|number| number.checked_sub(1))
    }

    fn asked(&self, spare: u8, stream: usize) -> u16 {
        let Stream { least, comes } = self.streams[stream];
        (least as u16).max(comes as u16 + spare as u16)
    }
}

// groups: how much can be spared at most

#[derive(Clone, Copy)]
struct Crowd {
    member: [bool; 12],
    gaps: [u8; 12],
    free: [bool; 12],
}

fn most_clearing(junction: &Junction, stream: usize) -> u8 {
    junction.row(stream).iter().map(|number| number.saturating_sub(1)).max().unwrap_or(0)
}

impl Crowd {
    fn new(junction: &Junction) -> Crowd {
        Crowd {
            member: [false; 12],
            gaps: std::array::from_fn(|stream| most_clearing(junction, stream)),
            free: [true; 12],
        }
    }

    fn with(&self, junction: &Junction, stream: usize) -> Crowd {
        let mut with = *self;
        with.member[stream] = true;
        for other in 0..12 {
            match junction.clearing(other, stream) {
                Some(seconds) => with.gaps[other] = seconds.min(with.gaps[other]),
                None => with.free[other] = false,
            }
        }
        with
    }

    fn seems_full(&self, junction: &Junction, next: usize, spare: u8) -> bool {
        let cycle = junction.cycle as u16;
        let mut sum = 0;
        for stream in 0..junction.count {
            let member = self.member[stream];
            if member | ((stream >= next) & self.free[stream]) {
                let long = junction.asked(spare, stream);
                if long > 0 {
                    sum += (long + self.gaps[stream] as u16).min(cycle);
                } else if member {
                    return false;
                }
            }
        }
        sum > cycle
    }

    fn seems_under(&self, junction: &Junction, below: u8) -> u8 {
        let mut under = below;
        while under > 0 && self.seems_full(junction, 12, under - 1) {
            under -= 1;
        }
        under
    }

    fn all_cross(&self, junction: &Junction) -> bool {
        let mut all = true;
        for stream in 0..junction.count {
            for next in 0..junction.count {
                let two = self.member[stream] && self.member[next] && stream != next;
                all &= !two || junction.clearing(stream, next).is_some();
            }
        }
        all
    }

    fn gap(&self, junction: &Junction, stream: usize) -> u8 {
        (0..junction.count)
            .filter(|&next| self.member[next] && next != stream)
            .map(|next| junction.clearing(stream, next).unwrap_or(0))
            .min()
            .unwrap_or(0)
    }

    fn is_overfull(&self, junction: &Junction, spare: u8) -> bool {
        let mut want = true;
        let mut need = 0;
        for stream in 0..junction.count {
            if self.member[stream] {
                let long = junction.asked(spare, stream);
                want &= long > 0;
                need += long + self.gap(junction, stream) as u16;
            }
        }
        self.all_cross(junction) & want & (need > junction.cycle as u16)
    }
}

fn least_left(junction: &Junction) -> u8 {
    let cycle = junction.cycle;
    let mut under = cycle + 1;
    for stream in &junction.streams[..junction.count] {
        if stream.least > cycle || stream.comes > cycle {
            return 0;
        }
        under = under.min(cycle - stream.comes + 1);
    }
    under
}

fn lower_by(junction: &Junction, crowd: &Crowd, under: u8) -> u8 {
    let guess = crowd.seems_under(junction, under);
    if guess < under && crowd.is_overfull(junction, guess) { guess } else { under }
}

fn lower_under(junction: &Junction, crowd: &Crowd, next: usize, under: u8) -> u8 {
    if next >= junction.count || under == 0 || !crowd.seems_full(junction, next, under - 1) {
        return under;
    }
    let mut less = under;
    if crowd.free[next] {
        let with = crowd.with(junction, next);
        less = lower_under(junction, &with, next + 1, lower_by(junction, &with, under));
    }
    lower_under(junction, crowd, next + 1, less)
}

fn most_spare(junction: &Junction) -> Option<u8> {
    lower_under(junction, &Crowd::new(junction), 0, least_left(junction)).checked_sub(1)
}

// placing: starts for greens of given lengths

#[derive(Clone, Copy)]
struct Setting {
    cycle: u8,
    count: usize,
    long: [u8; MOST],
    table: [u8; PAIRS],
    lowest: [u8; MOST],
    highest: [u8; MOST],
}

struct Gaps {
    cycle: u8,
    count: usize,
    gap: [u16; PAIRS],
}

#[derive(Clone, Copy)]
struct Bounds {
    low: [u8; MOST],
    high: [u8; MOST],
    before: [bool; PAIRS],
}

type Group = [bool; MOST];
type Starts = [u8; MOST];

fn gap(setting: &Setting, first: usize, second: usize) -> u16 {
    let there = setting.table[first * MOST + second];
    let back = setting.table[second * MOST + first];
    let tied = (first != second) & (setting.long[first] > 0) & (setting.long[second] > 0) & ((there > 0) | (back > 0));
    if tied { setting.long[first] as u16 + there.saturating_sub(1) as u16 } else { 0 }
}

fn measure(setting: &Setting) -> Gaps {
    Gaps {
        cycle: setting.cycle,
        count: setting.count,
        gap: std::array::from_fn(|place| gap(setting, place / MOST, place % MOST)),
    }
}

impl Bounds {
    fn raise(&mut self, green: usize, to: u32) -> Option<bool> {
        let low = self.low[green] as u32;
        let high = self.high[green] as u32;
        if to > high || low > high {
            return None;
        }
        if to <= low {
            return Some(false);
        }
        self.low[green] = to as u8;
        Some(true)
    }

    fn lower(&mut self, green: usize, to: u32) -> Option<bool> {
        if to < self.low[green] as u32 {
            return None;
        }
        if to >= self.high[green] as u32 {
            return Some(false);
        }
        self.high[green] = to as u8;
        Some(true)
    }
}

#[derive(Clone, Copy)]
struct Clash {
    first: usize,
    second: usize,
    room: u32,
}

impl Gaps {
    fn comes_first(&self, bounds: &Bounds, first: usize, second: usize) -> bool {
        let back = self.gap[second * MOST + first] as u32;
        bounds.before[first * MOST + second] | (bounds.low[second] as u32 + back > bounds.high[first] as u32)
    }

    fn distance(&self, bounds: &Bounds, first: usize, second: usize) -> u32 {
        let gap = self.gap[first * MOST + second] as u32;
        if self.comes_first(bounds, first, second) { gap + self.cycle as u32 } else { gap }
    }

    fn meet(&self, bounds: &mut Bounds, first: usize, second: usize) -> Option<bool> {
        let round = self.cycle as u32;
        let far = self.distance(bounds, first, second);
        let last = bounds.high[second] as u32 + round;
        if far > last {
            return None;
        }
        let earliest = (bounds.low[first] as u32 + far).saturating_sub(round);
        let raised = bounds.raise(second, earliest)?;
        let lowered = bounds.lower(first, last - far)?;
        Some(raised | lowered)
    }

    fn go_round(&self, bounds: &mut Bounds) -> Option<bool> {
        let mut moved = false;
        for first in 0..self.count {
            for second in 0..self.count {
                moved |= self.meet(bounds, first, second)?;
            }
        }
        Some(moved)
    }

    fn narrow(&self, bounds: &mut Bounds) -> Option<()> {
        while self.go_round(bounds)? {}
        Some(())
    }

    fn weigh(&self, bounds: &Bounds, one: usize, other: usize) -> Option<Clash> {
        let low = bounds.low[one] as u32;
        let other_low = bounds.low[other] as u32;
        let there = low + self.gap[one * MOST + other] as u32;
        let back = other_low + self.gap[other * MOST + one] as u32;
        if there <= other_low || back <= low {
            return None;
        }
        let room = (bounds.high[one] as u32 + bounds.high[other] as u32).saturating_sub(there + back);
        let (first, second) = if low <= other_low { (one, other) } else { (other, one) };
        Some(Clash { first, second, room })
    }

    fn tightest(&self, bounds: &Bounds) -> Option<Clash> {
        let mut best: Option<Clash> = None;
        for one in 0..self.count {
            let mut here: Option<Clash> = None;
            for other in 0..=one {
                here = tighter(here, self.weigh(bounds, one, other));
            }
            best = tighter(best, here);
        }
        best
    }

    fn span(&self, bounds: &Bounds, one: usize, other: usize) -> u32 {
        let gap = self.gap[one * MOST + other] as u32;
        let low = bounds.low[other] as u32;
        let high = bounds.high[one] as u32;
        if gap == 0 {
            0
        } else if self.comes_first(bounds, one, other) {
            gap.max(low.saturating_sub(high))
        } else if self.comes_first(bounds, other, one) {
            gap.max((low + self.cycle as u32).saturating_sub(high))
        } else {
            gap
        }
    }

    fn spread(&self, bounds: &Bounds) -> [u32; PAIRS] {
        let mut spans = [0; PAIRS];
        for one in 0..self.count {
            for other in 0..self.count {
                spans[one * MOST + other] = self.span(bounds, one, other);
            }
        }
        spans
    }

    // How much of the cycle a group takes: the room after each member, and the room before it that is its own.
    fn taken(&self, spans: &[u32; PAIRS], group: &Group) -> u32 {
        let cycle = self.cycle as u32;
        let mut out = [0; MOST];
        for one in 0..self.count {
            if group[one] {
                out[one] = cycle;
                for other in 0..self.count {
                    if group[other] && other != one {
                        out[one] = out[one].min(spans[one * MOST + other]);
                    }
                }
            }
        }
        let mut sum = 0;
        for other in 0..self.count {
            if group[other] {
                let mut room = cycle.saturating_sub(out[other]);
                for one in 0..self.count {
                    if group[one] && one != other {
                        room = room.min(spans[one * MOST + other].saturating_sub(out[one]));
                    }
                }
                sum += out[other] + room;
            }
        }
        sum
    }

    fn grow(&self, seed: usize) -> Group {
        let mut group = [false; MOST];
        group[seed] = true;
        for green in 0..self.count {
            let tied = (0..self.count).all(|other| !group[other] || self.gap[green * MOST + other] != 0);
            if tied {
                group[green] = true;
            }
        }
        group
    }

    fn largest(&self, bounds: &Bounds) -> Group {
        let spans = self.spread(bounds);
        let mut best = [false; MOST];
        let mut most = 0;
        for seed in 0..self.count {
            let group = self.grow(seed);
            let share = self.taken(&spans, &group);
            if share > most {
                most = share;
                best = group;
            }
        }
        best
    }

    fn put_before(&self, bounds: &Bounds, first: usize, second: usize) -> Option<Bounds> {
        let mut put = *bounds;
        let earliest = put.low[first] as u32 + self.gap[first * MOST + second] as u32;
        put.raise(second, earliest)?;
        put.before[first * MOST + second] = true;
        Some(put)
    }

    fn search(&self, group: &Group, mut bounds: Bounds, nodes: &mut u64) -> Option<Starts> {
        *nodes += 1;
        self.narrow(&mut bounds)?;
        let Some(clash) = self.tightest(&bounds) else {
            return Some(bounds.low);
        };
        if self.taken(&self.spread(&bounds), group) > self.cycle as u32 {
            return None;
        }
        if let Some(one) = self.put_before(&bounds, clash.first, clash.second) {
            if let Some(starts) = self.search(group, one, nodes) {
                return Some(starts);
            }
        }
        let other = self.put_before(&bounds, clash.second, clash.first)?;
        self.search(group, other, nodes)
    }
}

fn tighter(one: Option<Clash>, other: Option<Clash>) -> Option<Clash> {
    match (one, other) {
        (Some(here), Some(there)) if there.room < here.room => other,
        (None, _) => other,
        _ => one,
    }
}

fn place(setting: &Setting, nodes: &mut u64) -> Option<Starts> {
    let gaps = measure(setting);
    let last = setting.cycle - 1;
    let bounds = Bounds {
        low: setting.lowest,
        high: setting.highest.map(|highest| highest.min(last)),
        before: [false; PAIRS],
    };
    let group = gaps.largest(&bounds);
    gaps.search(&group, bounds, nodes)
}

// planning: a best plan

#[derive(Clone, Copy)]
struct Green {
    from: u8,
    long: u8,
}

struct Found {
    plan: [Green; 12],
    spare: u8,
}

fn busiest(junction: &Junction) -> usize {
    let mut busiest = 0;
    let mut most = 0;
    for stream in 0..junction.count {
        let count = junction.row(stream).iter().filter(|number| **number > 0).count();
        if count > most {
            busiest = stream;
            most = count;
        }
    }
    busiest
}

fn lay(junction: &Junction, anchor: usize) -> Setting {
    let mut setting = Setting {
        cycle: junction.cycle,
        count: junction.count,
        long: [0; MOST],
        table: [0; PAIRS],
        lowest: [0; MOST],
        highest: [0; MOST],
    };
    for stream in 0..junction.count {
        for (next, number) in junction.row(stream).iter().enumerate() {
            setting.table[stream * MOST + next] = *number;
        }
        if stream != anchor {
            setting.highest[stream] = junction.cycle - 1;
        }
    }
    setting
}

fn leaving(junction: &Junction, ground: &Setting, spare: u8, nodes: &mut u64) -> Option<Found> {
    let mut setting = *ground;
    for stream in 0..junction.count {
        let long = junction.asked(spare, stream);
        if long > junction.cycle as u16 {
            return None;
        }
        setting.long[stream] = long as u8;
    }
    let starts = place(&setting, nodes)?;
    let mut plan = [Green { from: 0, long: 0 }; 12];
    for stream in 0..junction.count {
        plan[stream] = Green { from: starts[stream], long: setting.long[stream] };
    }
    Some(Found { plan, spare })
}

fn best(junction: &Junction, nodes: &mut u64) -> Option<Found> {
    let mut most = most_spare(junction)?;
    let ground = lay(junction, busiest(junction));
    let mut found = leaving(junction, &ground, 0, nodes)?;
    while found.spare < most {
        let spare = most - (most - found.spare) / 2;
        match leaving(junction, &ground, spare, nodes) {
            Some(better) => found = better,
            None => most = spare - 1,
        }
    }
    Some(found)
}

// the benchmark

fn junctions_in(text: &str) -> Vec<Junction> {
    let mut junctions: Vec<(Junction, Vec<&str>, Vec<(usize, usize, u8)>)> = Vec::new();
    for line in text.lines() {
        let words: Vec<&str> = line.split('#').next().unwrap().split_whitespace().collect();
        if let ["junction", _] = words[..] {
            let streams = [Stream { least: 0, comes: 0 }; 12];
            junctions.push((Junction { cycle: 0, count: 0, streams, table: [0; 144] }, vec![], vec![]));
            continue;
        }
        let (junction, names, clearings) = junctions.last_mut().unwrap();
        match words[..] {
            ["cycle", seconds] => junction.cycle = seconds.parse().unwrap(),
            [name, "least", least, "comes", comes] => {
                junction.streams[junction.count] = Stream { least: least.parse().unwrap(), comes: comes.parse().unwrap() };
                junction.count += 1;
                names.push(name);
            }
            [first, seconds, next] => {
                let place = |name| names.iter().position(|other| *other == name).unwrap();
                clearings.push((place(first), place(next), seconds.parse().unwrap()));
            }
            _ => {}
        }
    }
    let mut done = Vec::new();
    for (mut junction, _, clearings) in junctions {
        for (first, next, seconds) in clearings {
            junction.table[first * junction.count + next] = seconds + 1;
        }
        done.push(junction);
    }
    done
}

// A figure by which plans that differ are told apart.
fn mark(plan: &[Green; 12]) -> u64 {
    plan.iter().fold(0u64, |mark, green| {
        let mark = mark.wrapping_mul(121).wrapping_add(green.from as u64);
        mark.wrapping_mul(121).wrapping_add(green.long as u64)
    })
}

fn run(name: &str, rounds: u32) {
    let junctions = junctions_in(&fs::read_to_string(format!("{name}.txt")).unwrap());
    let known = fs::read_to_string(format!("{name}.answers")).unwrap();
    let (mut right, mut none, mut spare, mut nodes, mut marks) = (0, 0, 0, 0, 0u64);
    let mut times = Vec::new();
    for (junction, known) in junctions.iter().zip(known.split_whitespace()) {
        let mut least = u128::MAX;
        for round in 0..rounds.max(1) {
            let mut visited = 0;
            let start = Instant::now();
            let found = std::hint::black_box(best(std::hint::black_box(junction), &mut visited));
            least = least.min(start.elapsed().as_nanos());
            if round == 0 {
                nodes += visited;
                let answer = found.as_ref().map(|found| found.spare);
                marks = found.as_ref().map_or(marks, |found| marks.wrapping_add(mark(&found.plan)));
                right += (answer == known.parse().ok()) as u32;
                none += answer.is_none() as u32;
                spare += answer.unwrap_or(0) as u32;
            }
        }
        times.push(least);
    }
    times.sort();
    let (count, total) = (times.len(), times.iter().sum::<u128>());
    println!("{name}: {count} junctions, {right} right, {none} without a plan, {spare} to spare in all");
    eprintln!("{name}: median {} ns, worst {} ns, total {total} ns, plans {marks}, nodes {nodes}", times[count / 2], times[count - 1]);
}

fn main() {
    let rounds = std::env::args().nth(1).map_or(1, |word| word.parse().unwrap());
    for name in FAMILIES {
        run(name, rounds);
    }
}
