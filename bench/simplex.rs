// The run of the simplex method on whole numbers in plain Rust, as it_engine makes it, for bench/run simplex.
// usage: simplex BUDGET TURNS < SYSTEM, where the first line of SYSTEM is the number of rows, the second the target, and each other
// a column, as pairs of a coordinate from 1 on and a coefficient. It prints the number of columns, of rows and of steps, how the
// run ends, the greatest number of a row that it met, and in which width the run was made.
use std::io::Read;
use std::rc::Rc;

// the numbers of a row, in 32 or in 64 bits
enum Numbers {
    Narrow(Vec<i32>),
    Wide(Vec<i64>),
}

struct Row {
    numbers: Numbers,
    denominator: u64,
    most: u64,
    // whether few numbers are other than 0
    sparse: bool,
}

struct Column {
    terms: Vec<(usize, i64)>,
}

fn gcd(a: u64, b: u64) -> u64 {
    if a == 1 {
        return 1;
    }
    let (mut a, mut b) = (a, b);
    while b != 0 {
        (a, b) = (b, a % b);
    }
    a
}

fn greatest(numbers: &[i64]) -> u64 {
    numbers.iter().map(|z| z.unsigned_abs()).max().unwrap_or(0)
}

fn greatest_narrow(numbers: &[i32]) -> u64 {
    numbers.iter().map(|z| z.unsigned_abs()).max().unwrap_or(0).into()
}

impl Column {
    fn price(&self, row: &Row) -> i64 {
        match &row.numbers {
            Numbers::Narrow(numbers) => self.terms.iter().map(|&(k, x)| x * i64::from(numbers[k])).sum(),
            Numbers::Wide(numbers) => self.terms.iter().map(|&(k, x)| x * numbers[k]).sum(),
        }
    }
}

fn divided(z: i64, k: u64) -> i64 {
    if k == 1 {
        return z;
    }
    let size = (z.unsigned_abs() / k) as i64;
    if z < 0 { -size } else { size }
}

// 2^32 over k, rounded down, and 1 more
fn reciprocal(k: u64) -> u64 {
    (1 << 32) / k + 1
}

// the quotient, where it is whole and the reciprocal of k tells it, as it does for numbers below 2^32
fn whole_quotient(size: u64, k: u64, reciprocal: u64) -> Option<u64> {
    let quotient = size.wrapping_mul(reciprocal) >> 32;
    (quotient.checked_mul(k) == Some(size)).then_some(quotient)
}

// as divided, without a division where the reciprocal gives the quotient
fn divided_quickly(z: i64, k: u64, reciprocal: u64) -> i64 {
    let size = z.unsigned_abs();
    let quotient = whole_quotient(size, k, reciprocal).unwrap_or_else(|| size / k) as i64;
    if z < 0 { -quotient } else { quotient }
}

fn sum_within(x: u64, a: u64, y: u64, b: u64, limit: u64) -> Option<u64> {
    let sum = x.checked_mul(a)?.checked_add(y.checked_mul(b)?)?;
    (sum <= limit).then_some(sum)
}

// the greatest common divisor of sizes and a denominator, with its reciprocal
fn shared_divisor(sizes: impl Iterator<Item = u64>, denominator: u64) -> (u64, u64) {
    let mut shared = denominator;
    let mut inverse = reciprocal(shared);
    for size in sizes {
        if shared == 1 {
            break;
        }
        if whole_quotient(size, shared, inverse).is_none() {
            shared = gcd(size, shared);
            inverse = reciprocal(shared);
        }
    }
    (shared, inverse)
}

fn shorten_wide(numbers: &mut [i64], denominator: u64) -> u64 {
    let (shared, inverse) = shared_divisor(numbers.iter().map(|z| z.unsigned_abs()), denominator);
    if shared != 1 {
        for z in numbers {
            *z = divided_quickly(*z, shared, inverse);
        }
    }
    denominator / shared
}

fn shorten_narrow(numbers: &mut [i32], denominator: u64) -> u64 {
    let (shared, inverse) = shared_divisor(numbers.iter().map(|z| z.unsigned_abs().into()), denominator);
    if shared != 1 {
        for z in numbers {
            *z = divided_quickly(i64::from(*z), shared, inverse) as i32;
        }
    }
    denominator / shared
}

// for each place the next one where the row isn't 0, and whether these are few
fn note_places<T: Copy + PartialEq + From<bool>>(numbers: &[T], next: &mut [usize]) {
    let mut k = numbers.len();
    next[k] = k;
    while k > 0 {
        k -= 1;
        next[k] = if numbers[k] != T::from(false) { k } else { next[k + 1] };
    }
}

fn combine_wide(row: &mut [i64], by: &[i64], next: &[usize], a: i64, b: i64, most: u64, most_by: u64, limit: u64) -> Option<u64> {
    let (x, y) = (a.unsigned_abs(), b.unsigned_abs());
    let bound = sum_within(most, x, most_by, y, limit).or_else(|| sum_within(greatest(row), x, most_by, y, limit));
    let Some(most) = bound else {
        for (z, &w) in row.iter_mut().zip(by) {
            let number = i128::from(*z) * i128::from(a) - i128::from(w) * i128::from(b);
            if number.unsigned_abs() > u128::from(limit) {
                return None;
            }
            *z = number as i64;
        }
        return Some(limit);
    };
    if a == 1 {
        let mut k = next[0];
        while k < by.len() {
            row[k] -= by[k] * b;
            k = next[k + 1];
        }
    } else {
        row.iter_mut().zip(by).for_each(|(z, w)| *z = *z * a - w * b);
    }
    Some(most)
}

// None where the bounds don't show that all numbers stay within the limit
fn combine_narrow(row: &mut [i32], by: &[i32], next: &[usize], sparse: bool, a: i64, b: i64, most: u64, most_by: u64, limit: u64) -> Option<u64> {
    let (a, b) = (i32::try_from(a).ok()?, i32::try_from(b).ok()?);
    let (x, y) = (u64::from(a.unsigned_abs()), u64::from(b.unsigned_abs()));
    let most = sum_within(most, x, most_by, y, limit)
        .or_else(|| sum_within(greatest_narrow(row), x, most_by, y, limit))?;
    if a != 1 {
        row.iter_mut().zip(by).for_each(|(z, w)| *z = *z * a - w * b);
    } else if sparse {
        let mut k = next[0];
        while k < by.len() {
            row[k] -= by[k] * b;
            k = next[k + 1];
        }
    } else {
        row.iter_mut().zip(by).for_each(|(z, w)| *z -= w * b);
    }
    Some(most)
}

// the same in 64 bits, in room, and a common divisor with the denominator is divided away; the denominator that is left
fn combine_in_room(row: &mut [i32], by: &[i32], room: &mut [i64], a: i64, b: i64, most_by: u64, denominator: u64, limit: u64) -> Option<u64> {
    sum_within(greatest_narrow(row), a.unsigned_abs(), most_by, b.unsigned_abs(), i64::MAX as u64)?;
    for ((space, &z), &w) in room.iter_mut().zip(&*row).zip(by) {
        *space = i64::from(z) * a - i64::from(w) * b;
    }
    let denominator = shorten_wide(room, denominator);
    for (z, &number) in row.iter_mut().zip(&*room) {
        if number.unsigned_abs() > limit {
            return None;
        }
        *z = number as i32;
    }
    Some(denominator)
}

impl Row {
    fn wide(numbers: Vec<i64>) -> Row {
        let most = greatest(&numbers);
        Row { numbers: Numbers::Wide(numbers), denominator: 1, most, sparse: false }
    }

    fn narrowed(&self, limit: u64) -> Option<Row> {
        let Numbers::Wide(numbers) = &self.numbers else { return None };
        let numbers: Option<Vec<i32>> =
            numbers.iter().map(|&z| (z.unsigned_abs() <= limit).then_some(z as i32)).collect();
        Some(Row { numbers: Numbers::Narrow(numbers?), denominator: self.denominator, most: self.most, sparse: false })
    }

    fn number(&self, k: usize) -> i64 {
        match &self.numbers {
            Numbers::Narrow(numbers) => numbers[k].into(),
            Numbers::Wide(numbers) => numbers[k],
        }
    }

    fn greatest(&self) -> u64 {
        match &self.numbers {
            Numbers::Narrow(numbers) => greatest_narrow(numbers),
            Numbers::Wide(numbers) => greatest(numbers),
        }
    }

    fn shorten(&mut self) {
        let denominator = match &mut self.numbers {
            Numbers::Narrow(numbers) => shorten_narrow(numbers, self.denominator),
            Numbers::Wide(numbers) => shorten_wide(numbers, self.denominator),
        };
        if denominator != self.denominator {
            self.denominator = denominator;
            self.most = self.greatest();
        }
    }

    // the leaving row after a step
    fn divided_by(mut self, pivot: i64) -> Row {
        self.denominator = pivot.unsigned_abs();
        self.shorten();
        self.most = self.greatest();
        if let Numbers::Narrow(numbers) = &self.numbers {
            self.sparse = numbers.iter().filter(|z| **z != 0).count() < numbers.len() / 5;
        }
        self
    }

    fn update(&mut self, own: &Row, next: &[usize], room: &mut [i64], entry: i64, pivot: i64, limit: u64) -> bool {
        if entry == 0 {
            return true;
        }
        let shared = gcd(pivot.unsigned_abs(), entry.unsigned_abs());
        let (a, b) = (divided(pivot, shared), divided(entry, shared));
        let denominator = match self.denominator.checked_mul(a.unsigned_abs()) {
            Some(denominator) if denominator < 1 << 63 => denominator,
            _ => return false,
        };
        let (most, large) = match (&mut self.numbers, &own.numbers) {
            (Numbers::Narrow(row), Numbers::Narrow(by)) => {
                match combine_narrow(row, by, next, own.sparse, a, b, self.most, own.most, limit) {
                    Some(most) => (most, 1 << 12),
                    None => match combine_in_room(row, by, room, a, b, own.most, denominator, limit) {
                        Some(left) => {
                            self.denominator = left;
                            self.most = greatest_narrow(row);
                            return true;
                        }
                        None => return false,
                    },
                }
            }
            (Numbers::Wide(row), Numbers::Wide(by)) => {
                match combine_wide(row, by, next, a, b, self.most, own.most, limit) {
                    Some(most) => (most, 1 << 16),
                    None => return false,
                }
            }
            _ => return false,
        };
        self.denominator = denominator;
        self.most = most;
        if self.denominator > large {
            self.shorten();
        }
        true
    }
}

struct Engine {
    columns: Rc<Vec<Column>>,
    rows: Vec<Row>,
    basis: Vec<usize>,
    // for each place the next one where the leaving row isn't 0
    next: Vec<usize>,
    // room for a row of 64 bits
    room: Vec<i64>,
    // the entries of the rows at the column that enters
    entries: Vec<i64>,
    limit: u64,
}

impl Engine {
    fn start(height: usize, target: &[(usize, i64)], columns: &[Vec<(usize, i64)>]) -> Engine {
        let mut right = vec![0; height];
        for &(k, x) in target {
            right[k] = x;
        }
        let signs: Vec<i64> = right.iter().map(|&x| if x < 0 { -1 } else { 1 }).collect();
        let columns: Vec<Column> = columns
            .iter()
            .map(|terms| Column {
                terms: terms.iter().map(|&(k, x)| (k, signs[k] * x)).collect(),
            })
            .collect();
        let norm = columns
            .iter()
            .map(|c| c.terms.iter().map(|t| t.1.unsigned_abs()).sum())
            .max()
            .unwrap_or(1);
        let mut cost = vec![-1; height];
        cost.push(0);
        let mut rows = Vec::new();
        for k in 0..height {
            let mut numbers = vec![0; height + 1];
            numbers[k] = 1;
            numbers[height] = signs[k] * right[k];
            cost[height] -= numbers[height];
            rows.push(Row::wide(numbers));
        }
        rows.push(Row::wide(cost));
        let basis = (columns.len()..columns.len() + height).collect();
        Engine::of(Rc::new(columns), rows, basis, i64::MAX as u64 / norm)
    }

    fn of(columns: Rc<Vec<Column>>, rows: Vec<Row>, basis: Vec<usize>, limit: u64) -> Engine {
        let height = basis.len();
        Engine { columns, rows, basis, next: vec![0; height + 2], room: vec![0; height + 1], entries: vec![0; height + 1], limit }
    }

    // the same engine with rows in 32 bits
    fn narrowed(&self) -> Option<Engine> {
        let limit = self.limit.min(i32::MAX as u64);
        let rows: Option<Vec<Row>> = self.rows.iter().map(|row| row.narrowed(limit)).collect();
        Some(Engine::of(self.columns.clone(), rows?, self.basis.clone(), limit))
    }

    fn leaving(&self) -> Option<usize> {
        let last = self.basis.len();
        let mut best: Option<(usize, i64)> = None;
        for i in 0..last {
            let entry = self.entries[i];
            if entry <= 0 {
                continue;
            }
            let Some((k, least)) = best else {
                best = Some((i, entry));
                continue;
            };
            let left = i128::from(self.rows[i].number(last)) * i128::from(least);
            let right = i128::from(self.rows[k].number(last)) * i128::from(entry);
            if left < right || left == right && self.basis[i] < self.basis[k] {
                best = Some((i, entry));
            }
        }
        best.map(|b| b.0)
    }

    fn step(&mut self) -> Option<bool> {
        let last = self.basis.len();
        let Some(column) = self.columns.iter().position(|c| c.price(&self.rows[last]) < 0) else {
            return Some(false);
        };
        for (entry, row) in self.entries.iter_mut().zip(&self.rows) {
            *entry = self.columns[column].price(row);
        }
        let r = self.leaving()?;
        let own = std::mem::replace(&mut self.rows[r], Row::wide(Vec::new())).divided_by(self.entries[r]);
        let pivot = own.denominator as i64;
        match &own.numbers {
            Numbers::Narrow(numbers) => note_places(numbers, &mut self.next),
            Numbers::Wide(numbers) => note_places(numbers, &mut self.next),
        }
        for (i, row) in self.rows.iter_mut().enumerate() {
            if i != r && !row.update(&own, &self.next, &mut self.room, self.entries[i], pivot, self.limit) {
                return None;
            }
        }
        self.rows[r] = own;
        self.basis[r] = column;
        Some(true)
    }

    // how the run ends, after how many steps, with the greatest number met where that is wanted
    fn run(&mut self, budget: u32, look: bool) -> (&'static str, u32, u64) {
        let last = self.basis.len();
        let mut most = 0;
        for k in 0..=budget {
            if look {
                let here = self.rows.iter().map(|row| row.greatest()).max();
                most = most.max(here.unwrap_or(0));
            }
            if self.rows[last].number(last) == 0 {
                return ("weights", k, most);
            }
            if k == budget {
                break;
            }
            match self.step() {
                Some(true) => {}
                Some(false) => return ("point", k, most),
                None => return ("lost", k, most),
            }
        }
        let open = self.columns.iter().any(|c| c.price(&self.rows[last]) < 0);
        (if open { "pivots" } else { "point" }, budget, most)
    }
}

// the run in 32 bits, and where that gives up, in 64; how it ends, after how many steps, the greatest number met where that is wanted,
// and in which width
fn run_by_width(start: &mut Engine, budget: u32, look: bool) -> (&'static str, u32, u64, &'static str) {
    if let Some(mut narrow) = start.narrowed() {
        let (name, steps, most) = narrow.run(budget, look);
        if name != "lost" {
            return (name, steps, most, "narrow");
        }
    }
    let (name, steps, most) = start.run(budget, look);
    (name, steps, most, "wide")
}

fn main() {
    let words: Vec<u32> = std::env::args().skip(1).map(|w| w.parse().unwrap()).collect();
    let (budget, turns) = (words[0], words[1]);
    let mut text = String::new();
    std::io::stdin().read_to_string(&mut text).unwrap();
    let mut lines = text.lines();
    let height = lines.next().unwrap().trim().parse().unwrap();
    let mut forms: Vec<Vec<(usize, i64)>> = lines
        .map(|line| {
            let numbers: Vec<i64> = line.split_whitespace().map(|w| w.parse().unwrap()).collect();
            numbers.chunks(2).map(|pair| (pair[0] as usize - 1, pair[1])).collect()
        })
        .collect();
    let target = forms.remove(0);
    let mut end = "";
    for _ in 0..turns {
        end = run_by_width(&mut Engine::start(height, &target, &forms), budget, false).0;
    }
    if turns == 0 {
        let (name, steps, most, width) = run_by_width(&mut Engine::start(height, &target, &forms), budget, true);
        println!("{} {height} {steps} {name} {most} {width}", forms.len());
    } else {
        println!("{end}");
    }
}
