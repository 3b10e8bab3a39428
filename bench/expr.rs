// What bench/expr times, in stock Rust with plain code: a parser by recursive descent that makes the postfix form at once, and a
// machine over a stack of fractions, in 128 and in 64 bits.
use std::hint::black_box;
use std::io::Read;
use std::time::Instant;

const INDICATOR: &[u8] = b"(#{DeItem00001}+#{DeItem00002})*100/(#{DeItem00003}+#{DeItem00004}+#{DeItem00005})";
const TURNS: u32 = 1_000_000;
const ROWS: usize = 1_024;
const TEXTS: usize = 16_384;
const SIZE: usize = 200;

#[derive(Clone, Copy, PartialEq)]
enum Sort {
    Number,
    Truth,
}

#[derive(Clone, Copy, PartialEq)]
enum Item<'a> {
    Element(&'a [u8], Option<&'a [u8]>, Option<&'a [u8]>),
    Constant(&'a [u8]),
    Group(&'a [u8]),
    Days,
    Rate(&'a [u8], usize),
}

#[derive(Clone, Copy)]
enum Binary {
    Equal,
    NotEqual,
    Less,
    AtMost,
    Greater,
    AtLeast,
    Add,
    Subtract,
    Multiply,
    Divide,
    Remainder,
}

/// What the machine computes with.
trait Number: Copy {
    fn literal(millionths: u64) -> Self;
}

#[derive(Clone, Copy)]
enum Instr<F> {
    Number(F),
    Load(usize),
    Present(usize),
    Absent(usize),
    PreferNumber(F),
    Prefer(usize),
    Negate,
    Not,
    Power(u32),
    Binary(Binary),
    Greatest(usize),
    Least(usize),
    SkipUnless(usize),
    GoOn(usize),
    And(usize),
    Or(usize),
}

#[derive(Debug)]
enum Fault {
    Syntax,
    TooDeep,
    Sort,
}

struct Form<'a, F> {
    code: Vec<Instr<F>>,
    items: Vec<Item<'a>>,
    plain: Vec<usize>,
}

struct Parser<'a, F> {
    text: &'a [u8],
    at: usize,
    opened: usize,
    form: Form<'a, F>,
}

const RATES: [&[u8]; 5] =
    [b"EXPECTED_REPORTS}", b"ACTUAL_REPORTS}", b"ACTUAL_REPORTS_ON_TIME}", b"REPORTING_RATE}", b"REPORTING_RATE_ON_TIME}"];

impl<'a, F: Number> Parser<'a, F> {
    fn blanks(&mut self) {
        while matches!(self.text.get(self.at), Some(b' ' | b'\t' | b'\r' | b'\n')) {
            self.at += 1;
        }
    }

    fn takes(&mut self, word: &[u8]) -> bool {
        let found = self.text[self.at..].starts_with(word);
        self.at += if found { word.len() } else { 0 };
        found
    }

    fn takes_next(&mut self, word: &[u8]) -> bool {
        self.blanks();
        self.takes(word)
    }

    fn must(&mut self, word: &[u8]) -> Result<(), Fault> {
        if self.takes_next(word) { Ok(()) } else { Err(Fault::Syntax) }
    }

    fn open(&mut self) -> Result<(), Fault> {
        self.must(b"(")?;
        self.opened += 1;
        if self.opened > 65 { Err(Fault::TooDeep) } else { Ok(()) }
    }

    fn close(&mut self) -> Result<(), Fault> {
        self.opened -= 1;
        self.must(b")")
    }

    fn put(&mut self, instr: Instr<F>) {
        self.form.code.push(instr);
    }

    /// Keeps room for a jump, which `land` fills.
    fn jump(&mut self) -> usize {
        self.put(Instr::GoOn(0));
        self.form.code.len() - 1
    }

    fn land(&mut self, from: usize, make: fn(usize) -> Instr<F>) {
        self.form.code[from] = make(self.form.code.len() - from - 1);
    }

    fn wants(found: Sort, wanted: Sort) -> Result<(), Fault> {
        if found == wanted { Ok(()) } else { Err(Fault::Sort) }
    }

    fn or(&mut self) -> Result<Sort, Fault> {
        let mut sort = self.and()?;
        while self.takes_next(b"||") {
            Self::wants(sort, Sort::Truth)?;
            let from = self.jump();
            sort = self.and()?;
            Self::wants(sort, Sort::Truth)?;
            self.land(from, Instr::Or);
        }
        Ok(sort)
    }

    fn and(&mut self) -> Result<Sort, Fault> {
        let mut sort = self.comparison()?;
        while self.takes_next(b"&&") {
            Self::wants(sort, Sort::Truth)?;
            let from = self.jump();
            sort = self.comparison()?;
            Self::wants(sort, Sort::Truth)?;
            self.land(from, Instr::And);
        }
        Ok(sort)
    }

    fn comparison(&mut self) -> Result<Sort, Fault> {
        let sort = self.sum()?;
        self.blanks();
        let operator = match self.text[self.at..] {
            [b'=', b'=', ..] => Binary::Equal,
            [b'!', b'=', ..] => Binary::NotEqual,
            [b'<', b'=', ..] => Binary::AtMost,
            [b'>', b'=', ..] => Binary::AtLeast,
            [b'<', ..] => Binary::Less,
            [b'>', ..] => Binary::Greater,
            _ => return Ok(sort),
        };
        self.at += if matches!(operator, Binary::Less | Binary::Greater) { 1 } else { 2 };
        Self::wants(sort, Sort::Number)?;
        Self::wants(self.sum()?, Sort::Number)?;
        self.put(Instr::Binary(operator));
        Ok(Sort::Truth)
    }

    fn sum(&mut self) -> Result<Sort, Fault> {
        let sort = self.product()?;
        loop {
            self.blanks();
            let operator = match self.text.get(self.at) {
                Some(b'+') => Binary::Add,
                Some(b'-') => Binary::Subtract,
                _ => return Ok(sort),
            };
            self.at += 1;
            Self::wants(sort, Sort::Number)?;
            Self::wants(self.product()?, Sort::Number)?;
            self.put(Instr::Binary(operator));
        }
    }

    fn product(&mut self) -> Result<Sort, Fault> {
        let sort = self.sign()?;
        loop {
            self.blanks();
            let operator = match self.text.get(self.at) {
                Some(b'*') => Binary::Multiply,
                Some(b'/') => Binary::Divide,
                Some(b'%') => Binary::Remainder,
                _ => return Ok(sort),
            };
            self.at += 1;
            Self::wants(sort, Sort::Number)?;
            Self::wants(self.sign()?, Sort::Number)?;
            self.put(Instr::Binary(operator));
        }
    }

    fn sign(&mut self) -> Result<Sort, Fault> {
        let (wanted, instr) = match {
            self.blanks();
            self.text.get(self.at)
        } {
            Some(b'-') => (Sort::Number, Instr::Negate),
            Some(b'!') => (Sort::Truth, Instr::Not),
            _ => return self.power(),
        };
        self.at += 1;
        Self::wants(self.sign()?, wanted)?;
        self.put(instr);
        Ok(wanted)
    }

    fn power(&mut self) -> Result<Sort, Fault> {
        let sort = self.operand()?;
        if self.takes_next(b"^") {
            Self::wants(sort, Sort::Number)?;
            self.blanks();
            let (value, len) = self.digits(2);
            if len == 0 {
                return Err(Fault::Syntax);
            }
            let (value, len) = if value > 64 { (value / 10, 1) } else { (value, len) };
            self.at += len;
            self.put(Instr::Power(value as u32));
        }
        Ok(sort)
    }

    fn digits(&self, most: usize) -> (u64, usize) {
        let digits = self.text[self.at..].iter().take(most).take_while(|byte| byte.is_ascii_digit());
        digits.fold((0, 0), |(value, len), byte| (value * 10 + u64::from(byte - b'0'), len + 1))
    }

    fn number(&mut self) -> Result<u64, Fault> {
        let (whole, len) = self.digits(12);
        self.at += len;
        if len == 0 {
            return Err(Fault::Syntax);
        }
        if !self.takes(b".") {
            return Ok(whole * 1_000_000);
        }
        let (part, len) = self.digits(6);
        self.at += len;
        if len == 0 { Err(Fault::Syntax) } else { Ok(whole * 1_000_000 + part * 10u64.pow(6 - len as u32)) }
    }

    fn uid(&mut self) -> Result<&'a [u8], Fault> {
        let uid = self.text.get(self.at..self.at + 11).ok_or(Fault::Syntax)?;
        self.at += 11;
        let is_one = uid[0].is_ascii_alphabetic() && uid.iter().all(u8::is_ascii_alphanumeric);
        if is_one { Ok(uid) } else { Err(Fault::Syntax) }
    }

    fn item(&mut self) -> Result<Option<Item<'a>>, Fault> {
        let item = if self.takes(b"#{") {
            let element = self.uid()?;
            let combo = if self.takes(b".") { Some(self.uid()?) } else { None };
            let attribute = if combo.is_some() && self.takes(b".") { Some(self.uid()?) } else { None };
            Item::Element(element, combo, attribute)
        } else if self.takes(b"C{") {
            Item::Constant(self.uid()?)
        } else if self.takes(b"OUG{") {
            Item::Group(self.uid()?)
        } else if self.takes(b"[days]") {
            return Ok(Some(Item::Days));
        } else if self.takes(b"R{") {
            let set = self.uid()?;
            if !self.takes(b".") {
                return Err(Fault::Syntax);
            }
            let rate = RATES.iter().position(|rate| self.text[self.at..].starts_with(rate)).ok_or(Fault::Syntax)?;
            self.at += RATES[rate].len();
            return Ok(Some(Item::Rate(set, rate)));
        } else {
            return Ok(None);
        };
        if self.takes(b"}") { Ok(Some(item)) } else { Err(Fault::Syntax) }
    }

    /// The number of an item, which is listed where it is new.
    fn place(&mut self, item: Item<'a>) -> usize {
        let items = &mut self.form.items;
        items.iter().position(|it| *it == item).unwrap_or_else(|| {
            items.push(item);
            items.len() - 1
        })
    }

    fn is_plain(item: Item) -> bool {
        matches!(item, Item::Element(..))
    }

    fn operand(&mut self) -> Result<Sort, Fault> {
        self.blanks();
        if let Some(item) = self.item()? {
            let n = self.place(item);
            if Self::is_plain(item) {
                self.form.plain.push(n);
            }
            self.put(Instr::Load(n));
            return Ok(Sort::Number);
        }
        match self.text.get(self.at) {
            Some(b'0'..=b'9') => {
                let number = self.number()?;
                self.put(Instr::Number(F::literal(number)));
                Ok(Sort::Number)
            }
            Some(b'(') => {
                self.open()?;
                let sort = self.or()?;
                self.close()?;
                Ok(sort)
            }
            _ => self.call(),
        }
    }

    fn call(&mut self) -> Result<Sort, Fault> {
        if self.takes(b"if") {
            self.chosen()
        } else if self.takes(b"isNull") {
            self.asked(Instr::Absent)
        } else if self.takes(b"isNotNull") {
            self.asked(Instr::Present)
        } else if self.takes(b"firstNonNull") {
            self.first()
        } else if self.takes(b"greatest") {
            self.best(Instr::Greatest)
        } else if self.takes(b"least") {
            self.best(Instr::Least)
        } else {
            Err(Fault::Syntax)
        }
    }

    fn chosen(&mut self) -> Result<Sort, Fault> {
        self.open()?;
        Self::wants(self.or()?, Sort::Truth)?;
        self.must(b",")?;
        let test = self.jump();
        Self::wants(self.or()?, Sort::Number)?;
        self.must(b",")?;
        let after = self.jump();
        self.land(test, Instr::SkipUnless);
        Self::wants(self.or()?, Sort::Number)?;
        self.land(after, Instr::GoOn);
        self.close()?;
        Ok(Sort::Number)
    }

    fn asked(&mut self, make: fn(usize) -> Instr<F>) -> Result<Sort, Fault> {
        self.open()?;
        self.blanks();
        let item = self.item()?.ok_or(Fault::Syntax)?;
        let n = self.place(item);
        self.put(make(n));
        self.close()?;
        Ok(Sort::Truth)
    }

    /// The last argument comes first in the postfix form, and each one before it goes over it where it is there.
    fn first(&mut self) -> Result<Sort, Fault> {
        self.open()?;
        let mut arguments = Vec::new();
        loop {
            self.blanks();
            arguments.push(match self.item()? {
                Some(item) => Err(self.place(item)),
                None => Ok(F::literal(self.number()?)),
            });
            if !self.takes_next(b",") {
                break;
            }
        }
        for (n, argument) in arguments.iter().rev().enumerate() {
            self.put(match (n, *argument) {
                (0, Ok(number)) => Instr::Number(number),
                (0, Err(item)) => Instr::Load(item),
                (_, Ok(number)) => Instr::PreferNumber(number),
                (_, Err(item)) => Instr::Prefer(item),
            });
        }
        self.close()?;
        Ok(Sort::Number)
    }

    fn best(&mut self, make: fn(usize) -> Instr<F>) -> Result<Sort, Fault> {
        self.open()?;
        let mut count = 0;
        loop {
            Self::wants(self.or()?, Sort::Number)?;
            count += 1;
            if !self.takes_next(b",") {
                break;
            }
        }
        self.put(make(count));
        self.close()?;
        Ok(Sort::Number)
    }
}

fn parse<F: Number>(text: &[u8]) -> Result<Form<'_, F>, Fault> {
    let form = Form { code: Vec::new(), items: Vec::new(), plain: Vec::new() };
    let mut parser = Parser { text, at: 0, opened: 0, form };
    parser.or()?;
    parser.blanks();
    if parser.at == text.len() { Ok(parser.form) } else { Err(Fault::Syntax) }
}

macro_rules! machine {
    ($name:ident, $signed:ty, $size:ty) => {
        mod $name {
            use super::{Binary, Form, Instr, Number};
            use std::cmp::Ordering;

            #[derive(Clone, Copy)]
            pub struct Frac {
                pub num: $signed,
                pub den: $size,
            }

            #[derive(Clone, Copy)]
            pub enum Value {
                Number(Frac),
                Truth(bool),
                Missing,
                Wide,
                ByZero,
            }

            fn common_divisor(a: $size, b: $size) -> $size {
                let (mut x, mut y) = (a, b);
                while y != 0 {
                    (x, y) = (y, x % y);
                }
                x
            }

            pub fn of(num: $signed, den: $size) -> Frac {
                let divisor = common_divisor(num.unsigned_abs(), den);
                Frac { num: num / divisor as $signed, den: den / divisor }
            }

            fn fits(number: Option<$signed>) -> Result<$signed, Value> {
                number.filter(|number| *number != <$signed>::MIN).ok_or(Value::Wide)
            }

            fn size_fits(size: Option<$size>) -> Result<$size, Value> {
                size.filter(|size| *size <= <$signed>::MAX as $size).ok_or(Value::Wide)
            }

            fn over_common(x: Frac, y: Frac, shared: $size) -> Result<($signed, $signed), Value> {
                let left = fits(x.num.checked_mul((y.den / shared) as $signed))?;
                Ok((left, fits(y.num.checked_mul((x.den / shared) as $signed))?))
            }

            fn add(x: Frac, y: Frac) -> Result<Frac, Value> {
                let shared = common_divisor(x.den, y.den);
                let (left, right) = over_common(x, y, shared)?;
                let num = fits(left.checked_add(right))?;
                Ok(of(num, size_fits((x.den / shared).checked_mul(y.den))?))
            }

            fn negated(x: Frac) -> Frac {
                Frac { num: -x.num, den: x.den }
            }

            fn mul(x: Frac, y: Frac) -> Result<Frac, Value> {
                let across = common_divisor(x.num.unsigned_abs(), y.den);
                let back = common_divisor(y.num.unsigned_abs(), x.den);
                let num = fits((x.num / across as $signed).checked_mul(y.num / back as $signed))?;
                Ok(Frac { num, den: size_fits((x.den / back).checked_mul(y.den / across))? })
            }

            fn div(x: Frac, y: Frac) -> Result<Frac, Value> {
                if y.num == 0 {
                    return Err(Value::ByZero);
                }
                let num = if y.num < 0 { -(y.den as $signed) } else { y.den as $signed };
                mul(x, Frac { num, den: y.num.unsigned_abs() })
            }

            fn rem(x: Frac, y: Frac) -> Result<Frac, Value> {
                let quotient = div(x, y)?;
                let whole = Frac { num: quotient.num / quotient.den as $signed, den: 1 };
                add(x, negated(mul(y, whole)?))
            }

            fn power(x: Frac, n: u32) -> Result<Frac, Value> {
                Ok(Frac { num: fits(x.num.checked_pow(n))?, den: size_fits(x.den.checked_pow(n))? })
            }

            fn compare(x: Frac, y: Frac) -> Result<Ordering, Value> {
                let (left, right) = over_common(x, y, common_divisor(x.den, y.den))?;
                Ok(left.cmp(&right))
            }

            fn number(value: Value) -> Frac {
                if let Value::Number(number) = value { number } else { Frac { num: 0, den: 1 } }
            }

            fn truth(value: Value) -> bool {
                matches!(value, Value::Truth(true))
            }

            impl Number for Frac {
                fn literal(millionths: u64) -> Frac {
                    of(millionths as $signed, 1_000_000)
                }
            }

            fn two(operator: Binary, x: Frac, y: Frac) -> Result<Value, Value> {
                Ok(match operator {
                    Binary::Add => Value::Number(add(x, y)?),
                    Binary::Subtract => Value::Number(add(x, negated(y))?),
                    Binary::Multiply => Value::Number(mul(x, y)?),
                    Binary::Divide => Value::Number(div(x, y)?),
                    Binary::Remainder => Value::Number(rem(x, y)?),
                    Binary::Equal => Value::Truth(compare(x, y)?.is_eq()),
                    Binary::NotEqual => Value::Truth(compare(x, y)?.is_ne()),
                    Binary::Less => Value::Truth(compare(x, y)?.is_lt()),
                    Binary::AtMost => Value::Truth(compare(x, y)?.is_le()),
                    Binary::Greater => Value::Truth(compare(x, y)?.is_gt()),
                    Binary::AtLeast => Value::Truth(compare(x, y)?.is_ge()),
                })
            }

            fn best(values: &[Value], wanted: Ordering) -> Result<Value, Value> {
                let mut best = number(values[0]);
                for value in &values[1..] {
                    if compare(number(*value), best)? == wanted {
                        best = number(*value);
                    }
                }
                Ok(Value::Number(best))
            }

            fn run(code: &[Instr<Frac>], entries: &[Option<Frac>]) -> Result<Value, Value> {
                let mut stack: Vec<Value> = Vec::new();
                let mut at = 0;
                let zero = Frac { num: 0, den: 1 };
                let entry = |n: usize| entries.get(n).copied().flatten();
                while at < code.len() {
                    let value = match code[at] {
                        Instr::Number(number) => Value::Number(number),
                        Instr::Load(n) => Value::Number(entry(n).unwrap_or(zero)),
                        Instr::Present(n) => Value::Truth(entry(n).is_some()),
                        Instr::Absent(n) => Value::Truth(entry(n).is_none()),
                        Instr::PreferNumber(number) => {
                            stack.pop();
                            Value::Number(number)
                        }
                        Instr::Prefer(n) => {
                            let other = stack.pop().unwrap();
                            entry(n).map_or(other, Value::Number)
                        }
                        Instr::Negate => Value::Number(negated(number(stack.pop().unwrap()))),
                        Instr::Not => Value::Truth(!truth(stack.pop().unwrap())),
                        Instr::Power(n) => Value::Number(power(number(stack.pop().unwrap()), n)?),
                        Instr::Binary(operator) => {
                            let right = number(stack.pop().unwrap());
                            two(operator, number(stack.pop().unwrap()), right)?
                        }
                        Instr::Greatest(n) | Instr::Least(n) => {
                            let wanted = if matches!(code[at], Instr::Greatest(_)) { Ordering::Greater } else { Ordering::Less };
                            let from = stack.len() - n;
                            let value = best(&stack[from..], wanted)?;
                            stack.truncate(from);
                            value
                        }
                        Instr::SkipUnless(n) => {
                            at += if truth(stack.pop().unwrap()) { 1 } else { 1 + n };
                            continue;
                        }
                        Instr::GoOn(n) => {
                            at += 1 + n;
                            continue;
                        }
                        Instr::And(n) | Instr::Or(n) => {
                            let is_or = matches!(code[at], Instr::Or(_));
                            if truth(stack.pop().unwrap()) == is_or {
                                at += n;
                                Value::Truth(is_or)
                            } else {
                                at += 1;
                                continue;
                            }
                        }
                    };
                    stack.push(value);
                    at += 1;
                }
                Ok(stack.pop().unwrap())
            }

            pub fn eval(form: &Form<Frac>, entries: &[Option<Frac>], skips: bool) -> Value {
                if skips && form.plain.iter().any(|n| entries.get(*n).copied().flatten().is_none()) {
                    return Value::Missing;
                }
                run(&form.code, entries).unwrap_or_else(|value| value)
            }

            pub fn entries() -> Vec<Option<Frac>> {
                let mut seed: u32 = 1;
                let mut next = || {
                    seed = seed.wrapping_mul(1_664_525).wrapping_add(1_013_904_223);
                    Some(of(<$signed>::from(seed >> 16), 10))
                };
                (0..super::ROWS + 64).map(|_| next()).collect()
            }

            pub fn told(value: Value) -> i128 {
                match value {
                    Value::Number(number) => (number.num as i128).wrapping_add(number.den as i128),
                    Value::Truth(truth) => i128::from(truth),
                    Value::Missing => 3,
                    Value::Wide => 4,
                    Value::ByZero => 5,
                }
            }

            pub fn evaluations(form: &Form<Frac>, entries: &[Option<Frac>]) -> i128 {
                let mut sum = 0i128;
                for turn in 0..super::TURNS {
                    let at = turn as usize % super::ROWS;
                    sum = sum.wrapping_add(told(eval(form, &entries[at..at + 5], true)));
                }
                sum
            }
        }
    };
}

machine!(wide, i128, u128);
machine!(narrow, i64, u64);

fn main() {
    let mut bytes = Vec::new();
    std::io::stdin().read_to_end(&mut bytes).unwrap();
    let texts: Vec<&[u8]> = bytes.chunks_exact(SIZE).take(TEXTS).collect();
    let form = parse::<wide::Frac>(INDICATOR).unwrap();
    let entries = wide::entries();
    let start = Instant::now();
    let sum = wide::evaluations(black_box(&form), black_box(&entries));
    let evaluating = start.elapsed().as_micros();
    let (narrow_form, narrow_entries) = (parse::<narrow::Frac>(INDICATOR).unwrap(), narrow::entries());
    let start = Instant::now();
    let narrow_sum =
        if texts.is_empty() { sum } else { narrow::evaluations(black_box(&narrow_form), black_box(&narrow_entries)) };
    let narrowing = start.elapsed().as_micros();
    assert_eq!(sum, narrow_sum);
    let start = Instant::now();
    let (mut items, mut forms) = (0, 0);
    for text in &texts {
        if let Ok(form) = black_box(parse::<wide::Frac>(text)) {
            items += form.items.len();
            forms += 1;
        }
    }
    let reading = start.elapsed().as_micros();
    let values = texts
        .iter()
        .filter_map(|text| parse::<wide::Frac>(text).ok())
        .fold(0i128, |sum, form| sum.wrapping_add(wide::told(wide::eval(&form, &entries, false))));
    println!("{sum} {items} {forms} {values}");
    eprintln!("evaluate {evaluating} narrow {narrowing} read {reading}");
}
