// The run of defined.py on whole numbers, for questions whose run has many steps: the whole table over one common denominator, the last
// pivot (Bareiss, "Sylvester's identity and multistep integer-preserving Gaussian elimination", 1968; Edmonds, 1967). It stops with an error where a number
// would not fit 62 bits, so no number that it meets in lowest terms has parts that don't.
// usage: steps < TABLE, where TABLE has the number of columns without artificials and of rows, and the budget of steps where there is one, then
// a line of `column value ..` for each row, the artificials left out, then the right sides. It prints the number of steps, how the run ends
// (`weights`, `point` or `pivots`), and `weights` as `column numerator denominator` or the cost row at the artificials as `numerator
// denominator`.
use std::io::Read;

const MOST: i128 = 1 << 62;

struct Table {
    rows: Vec<Vec<i64>>,
    basis: Vec<usize>,
    columns: usize,
    bottom: i64,
}

impl Table {
    /// The rows with their artificials and right sides, and last the cost row, the negated sum of the others.
    fn start(columns: usize, terms: &[Vec<i64>], right: &[i64]) -> Table {
        let height = right.len();
        let width = columns + height + 1;
        let mut rows = vec![vec![0; width]; height + 1];
        for i in 0..height {
            for pair in terms[i].chunks(2) {
                rows[i][pair[0] as usize] = pair[1];
            }
            rows[i][columns + i] = 1;
            rows[i][width - 1] = right[i];
            for j in 0..width {
                rows[height][j] -= rows[i][j];
            }
        }
        let basis = (columns..columns + height).collect();
        Table { rows, basis, columns, bottom: 1 }
    }

    fn height(&self) -> usize {
        self.basis.len()
    }

    fn right(&self, i: usize) -> i64 {
        self.rows[i][self.columns + self.height()]
    }

    fn entering(&self) -> Option<usize> {
        (0..self.columns).find(|&j| self.rows[self.height()][j] < 0)
    }

    /// The row of the least ratio, among equal ones that with the least basic column.
    fn leaving(&self, c: usize) -> usize {
        (0..self.height())
            .filter(|&i| self.rows[i][c] > 0)
            .min_by(|&i, &k| {
                let first = i128::from(self.right(i)) * i128::from(self.rows[k][c]);
                let second = i128::from(self.right(k)) * i128::from(self.rows[i][c]);
                first.cmp(&second).then(self.basis[i].cmp(&self.basis[k]))
            })
            .expect("a column with a cost below 0 has an entry above 0")
    }

    fn pivot(&mut self, r: usize, c: usize) {
        let own = self.rows[r].clone();
        let (p, bottom) = (i128::from(own[c]), i128::from(self.bottom));
        for (i, row) in self.rows.iter_mut().enumerate() {
            let entry = i128::from(row[c]);
            if i == r || entry == 0 && p == bottom {
                continue;
            }
            for (z, &w) in row.iter_mut().zip(&own) {
                if *z == 0 && (w == 0 || entry == 0) {
                    continue;
                }
                let sum = i128::from(*z) * p - i128::from(w) * entry;
                let new = if bottom == 1 { sum } else { sum / bottom };
                assert!(new.abs() < MOST, "a number that is too large");
                *z = new as i64;
            }
        }
        self.bottom = own[c];
        self.basis[r] = c;
    }
}

fn main() {
    let mut text = String::new();
    std::io::stdin().read_to_string(&mut text).expect("a table");
    let lines: Vec<Vec<i64>> = text
        .lines()
        .map(|line| line.split_whitespace().map(|word| word.parse().expect("a number")).collect())
        .collect();
    let (columns, height) = (lines[0][0] as usize, lines[0][1] as usize);
    let mut table = Table::start(columns, &lines[1..1 + height], &lines[1 + height]);
    let budget = lines[0].get(2).copied().unwrap_or(i64::MAX);
    let mut steps = 0;
    loop {
        let width = columns + height + 1;
        if table.rows[height][width - 1] == 0 {
            println!("{steps} weights");
            for i in 0..height {
                if table.basis[i] < columns && table.right(i) != 0 {
                    println!("{} {} {}", table.basis[i], table.right(i), table.bottom);
                }
            }
            return;
        }
        let Some(c) = table.entering() else {
            println!("{steps} point");
            for j in columns..columns + height {
                println!("{} {}", table.rows[height][j], table.bottom);
            }
            return;
        };
        if steps == budget {
            println!("{steps} pivots");
            return;
        }
        let r = table.leaving(c);
        table.pivot(r, c);
        steps += 1;
    }
}
