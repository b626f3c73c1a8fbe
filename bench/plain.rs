//! The job of `sheet` in plain Rust: what the verified program is measured against. Nothing here is verified.
//!
//!     rustc -O -o /tmp/plain bench/plain.rs && /tmp/plain < BOOK
use std::fmt::Write as _;
use std::io::{Read, Write as _};

const TOP: usize = 2000;

#[derive(Clone, Copy, PartialEq)]
enum Life {
    Standing,
    Filled,
    Withdrawn,
    Killed,
}

#[derive(Clone, Copy)]
struct Order {
    member: usize,
    buys: bool,
    limit: usize,
    placed: u64,
    left: u64,
    life: Life,
}

#[derive(Clone, Copy)]
struct Line {
    member: usize,
    order: usize,
    making: usize,
    buys: bool,
    quantity: u64,
    price: usize,
}

struct Session {
    way: u64,
    sharing: u64,
    reference: usize,
    period: u64,
    orders: Vec<Order>,
    accounts: [(u64, u64); 64],
    traded: [bool; 64],
}

fn field(word: u64, first: u32, width: u32) -> u64 {
    word >> (48 - first - width) & ((1 << width) - 1)
}

fn word(six: &[u8]) -> u64 {
    six.iter().fold(0, |word, byte| word << 8 | *byte as u64)
}

/// The number and the record of the first fault.
fn fault(book: &[u8]) -> Option<(u64, usize)> {
    if book.len() < 6 {
        return Some((14, 0));
    }
    let header = word(&book[..6]);
    let (way, sharing) = (field(header, 4, 3), field(header, 7, 2));
    let questions = [
        (15, field(header, 0, 4) == 1),
        (16, way <= 5),
        (17, sharing <= 2 && (way <= 1 || sharing == 0)),
        (18, way == 1 || field(header, 9, 11) == 0),
        (19, field(header, 44, 4) == 0),
        (20, book.len() == 6 + 6 * field(header, 32, 12) as usize),
    ];
    if let Some((number, _)) = questions.iter().find(|(_, yes)| !yes) {
        return Some((*number, 0));
    }
    for (k, six) in book[6..].chunks(6).enumerate() {
        let word = word(six);
        let kind = field(word, 0, 2);
        if kind == 3 || kind == 2 && way == 5 {
            return Some((21, k + 1));
        }
        if kind == 0 && field(word, 3, 2) == 3 {
            return Some((22, k + 1));
        }
        let spare = [field(word, 42, 6), field(word, 17, 31), field(word, 2, 46)][kind as usize];
        if spare != 0 {
            return Some((23, k + 1));
        }
    }
    None
}

impl Session {
    fn standing(&self, buys: bool) -> impl Iterator<Item = (usize, &Order)> {
        self.orders
            .iter()
            .enumerate()
            .filter(move |(_, o)| o.life == Life::Standing && o.buys == buys)
    }

    fn take(&mut self, place: usize, quantity: u64, price: usize, lines: &mut Vec<Line>) {
        let order = &mut self.orders[place];
        order.left -= quantity;
        if order.left == 0 {
            order.life = Life::Filled;
        }
        let worth = quantity * price as u64 * self.period;
        let account = &mut self.accounts[order.member];
        if order.buys {
            account.0 += worth;
        } else {
            account.1 += worth;
        }
        self.traded[order.member] = true;
        lines.push(Line {
            member: order.member,
            order: place + 1,
            making: lines.len(),
            buys: order.buys,
            quantity,
            price,
        });
    }

    /// The best standing order of a side.
    fn best(&self, buys: bool) -> Option<usize> {
        let by_size = self.way < 5;
        self.standing(buys)
            .min_by_key(|(place, o)| {
                let limit = if buys { TOP - o.limit } else { o.limit };
                (limit, if by_size { u64::MAX - o.placed } else { 0 }, *place)
            })
            .map(|(place, _)| place)
    }

    fn pair(&mut self, lines: &mut Vec<Line>) {
        while let (Some(b), Some(s)) = (self.best(true), self.best(false)) {
            let (buy, sell) = (self.orders[b], self.orders[s]);
            if buy.limit < sell.limit {
                break;
            }
            let price = match self.way {
                2 => buy.limit,
                3 => sell.limit,
                4 => (buy.limit + sell.limit + 1) / 2,
                _ => if b < s { buy.limit } else { sell.limit },
            };
            let quantity = buy.left.min(sell.left);
            self.take(b, quantity, price, lines);
            self.take(s, quantity, price, lines);
        }
    }

    /// Demand and supply at all ticks.
    fn figures(&self) -> (Vec<u64>, Vec<u64>) {
        let (mut demand, mut supply) = (vec![0; TOP + 2], vec![0; TOP + 2]);
        for o in self.orders.iter().filter(|o| o.life == Life::Standing) {
            if o.buys { demand[o.limit] += o.left } else { supply[o.limit] += o.left }
        }
        for p in (0..TOP).rev() {
            demand[p] += demand[p + 1];
        }
        for p in 1..=TOP {
            supply[p] += supply[p - 1];
        }
        supply[TOP + 1] = 0;
        (demand, supply)
    }

    fn price(&self, demand: &[u64], supply: &[u64], volume: u64) -> usize {
        let below = |p: usize| if p == 0 { 0 } else { supply[p - 1] };
        if self.way == 0 {
            let crosses = |p: &usize| demand[p + 1] <= volume && volume <= demand[*p] && below(*p) <= volume && volume <= supply[*p];
            let low = (0..=TOP).find(crosses).unwrap();
            let high = (0..=TOP).rev().find(crosses).unwrap();
            return (low + high + 1) / 2;
        }
        let unbalance = |p: usize| demand[p].abs_diff(supply[p]);
        let candidates: Vec<usize> = (0..=TOP)
            .filter(|&p| demand[p].min(supply[p]) == volume && (demand[p] != demand[p + 1] || supply[p] != below(p)))
            .collect();
        let least = candidates.iter().map(|&p| unbalance(p)).min().unwrap();
        let kept: Vec<usize> = candidates.into_iter().filter(|&p| unbalance(p) == least).collect();
        let over = kept.iter().copied().filter(|&p| demand[p] > supply[p]);
        let under = kept.iter().copied().filter(|&p| demand[p] < supply[p]);
        if over.clone().count() == kept.len() {
            return *kept.last().unwrap();
        }
        if under.clone().count() == kept.len() {
            return kept[0];
        }
        let (low, high) = match least {
            0 => (kept[0], *kept.last().unwrap()),
            _ => (over.max().unwrap(), under.min().unwrap()),
        };
        self.reference.max(low).min(high)
    }

    /// The shares of a group, earliest first.
    fn shares(&self, amount: u64, group: &[u64]) -> Vec<u64> {
        let mut places: Vec<usize> = (0..group.len()).collect();
        if self.sharing < 2 {
            if self.sharing == 1 {
                places.sort_by_key(|&k| (u64::MAX - group[k], k));
            }
            let (mut left, mut shares) = (amount, vec![0; group.len()]);
            for k in places {
                shares[k] = left.min(group[k]);
                left -= shares[k];
            }
            return shares;
        }
        let whole: u64 = group.iter().sum();
        let amount = amount.min(whole);
        let mut shares: Vec<u64> = group.iter().map(|q| q * amount / whole).collect();
        places.sort_by_key(|&k| (whole - group[k] * amount % whole, k));
        let spare = amount - shares.iter().sum::<u64>();
        for &k in places.iter().take(spare as usize) {
            shares[k] += 1;
        }
        shares
    }

    /// What each order of a side gets of the volume.
    fn fill(&self, buys: bool, volume: u64, award: &mut [u64]) {
        let mut side: Vec<usize> = self.standing(buys).map(|(place, _)| place).collect();
        side.sort_by_key(|&k| (if buys { TOP - self.orders[k].limit } else { self.orders[k].limit }, k));
        let mut left = volume;
        for group in side.chunk_by(|&i, &j| self.orders[i].limit == self.orders[j].limit) {
            let quantities: Vec<u64> = group.iter().map(|&k| self.orders[k].left).collect();
            for (&k, share) in group.iter().zip(self.shares(left, &quantities)) {
                award[k] = share;
                left -= share;
            }
        }
    }

    /// The volume and the price of a round.
    fn round(&mut self, lines: &mut Vec<Line>) -> (u64, usize) {
        if self.way >= 2 {
            self.pair(lines);
            return (lines.iter().filter(|l| l.buys).map(|l| l.quantity).sum(), 0);
        }
        let highest_buy = self.standing(true).map(|(_, o)| o.limit).max();
        let lowest_sell = self.standing(false).map(|(_, o)| o.limit).min();
        if highest_buy.is_none() || lowest_sell.is_none() || highest_buy < lowest_sell {
            return (0, 0);
        }
        let (demand, supply) = self.figures();
        let volume = (0..=TOP).map(|p| demand[p].min(supply[p])).max().unwrap();
        let price = self.price(&demand, &supply, volume);
        let mut award = vec![0; self.orders.len()];
        self.fill(true, volume, &mut award);
        self.fill(false, volume, &mut award);
        for (place, &quantity) in award.iter().enumerate() {
            if quantity > 0 {
                self.take(place, quantity, price, lines);
            }
        }
        (volume, price)
    }

    fn place(&mut self, word: u64, lines: &mut Vec<Line>) -> Option<u64> {
        let (buys, kind) = (field(word, 2, 1) == 0, field(word, 3, 2));
        let (member, limit, quantity) = (field(word, 5, 6) as usize, field(word, 11, 11) as usize, field(word, 22, 20));
        let opposes = |o: &Order| o.life == Life::Standing && o.member == member && o.buys != buys;
        let questions = [
            (3, member >= 1),
            (4, limit <= TOP),
            (5, (100..=1_000_000).contains(&quantity)),
            (6, kind == 0 || self.way == 5),
            (7, !self.orders.iter().any(opposes)),
            (8, self.orders.len() < 511),
        ];
        if let Some((number, _)) = questions.iter().find(|(_, yes)| !yes) {
            return Some(*number);
        }
        let meets = |o: &Order| if buys { o.limit <= limit } else { o.limit >= limit };
        let covered = kind != 2 || self.standing(!buys).filter(|(_, o)| meets(o)).map(|(_, o)| o.left).sum::<u64>() >= quantity;
        let place = self.orders.len();
        self.orders.push(Order { member, buys, limit, placed: quantity, left: quantity, life: Life::Standing });
        if self.way == 5 {
            if covered {
                self.pair(lines);
            }
            let order = &mut self.orders[place];
            if kind > 0 && order.life == Life::Standing {
                order.left = 0;
                order.life = Life::Killed;
            }
        }
        None
    }

    fn withdraw(&mut self, word: u64) -> Option<u64> {
        let (member, number) = (field(word, 2, 6) as usize, field(word, 8, 9) as usize);
        if member == 0 {
            return Some(3);
        }
        if number == 0 || number > self.orders.len() {
            return Some(10);
        }
        let order = &mut self.orders[number - 1];
        if order.member != member {
            return Some(11);
        }
        if order.life != Life::Standing {
            return Some(12);
        }
        order.left = 0;
        order.life = Life::Withdrawn;
        None
    }
}

fn write_lines(out: &mut String, lines: &mut Vec<Line>) {
    lines.sort_by_key(|l| (l.member, l.order, l.making));
    for l in lines {
        let side = if l.buys { 'B' } else { 'S' };
        writeln!(out, "{side} {} {} {} {}", l.order, l.member, l.quantity, l.price).unwrap();
    }
}

fn sheet(book: &[u8]) -> String {
    if let Some((number, record)) = fault(book) {
        return format!("FAULT {number} {record}\n");
    }
    let header = word(&book[..6]);
    let mut session = Session {
        way: field(header, 4, 3),
        sharing: field(header, 7, 2),
        reference: field(header, 9, 11) as usize,
        period: field(header, 20, 12),
        orders: Vec::new(),
        accounts: [(0, 0); 64],
        traded: [false; 64],
    };
    if !(1..=2976).contains(&session.period) {
        return "NO 0 1\n".into();
    }
    if session.reference > TOP {
        return "NO 0 2\n".into();
    }
    let mut out = String::new();
    for (k, six) in book[6..].chunks(6).enumerate() {
        let word = word(six);
        let mut lines = Vec::new();
        let no = match field(word, 0, 2) {
            0 => session.place(word, &mut lines),
            1 => session.withdraw(word),
            _ => {
                let (volume, price) = session.round(&mut lines);
                let mut members = [false; 64];
                lines.iter().for_each(|l: &Line| members[l.member] = true);
                let members = members.iter().filter(|m| **m).count();
                writeln!(out, "ROUND {volume} {price} {members}").unwrap();
                None
            }
        };
        if let Some(number) = no {
            writeln!(out, "NO {} {number}", k + 1).unwrap();
        }
        write_lines(&mut out, &mut lines);
    }
    for member in 1..64 {
        if session.traded[member] {
            let (pays, gets) = session.accounts[member];
            writeln!(out, "ACCOUNT {member} {pays} {gets}").unwrap();
        }
    }
    out
}

fn main() {
    let mut book = Vec::new();
    std::io::stdin().take(24_577).read_to_end(&mut book).unwrap();
    std::io::stdout().write_all(sheet(&book).as_bytes()).unwrap();
}
