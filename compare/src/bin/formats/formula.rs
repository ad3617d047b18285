//! The formulas of the page: numbers, n, k, +, -, ×, ^ and parentheses, a
//! product also by standing side by side.

pub fn value(text: &str, n: i64, k: i64) -> Result<i64, String> {
    let mut reader = Reader { rest: text.chars().filter(|c| *c != ' ').collect(), at: 0, n, k };
    let value = reader.sum().ok_or(format!("'{text}' is no formula"))?;
    match reader.at == reader.rest.len() {
        true => Ok(value),
        false => Err(format!("'{text}' is no formula")),
    }
}

struct Reader {
    rest: Vec<char>,
    at: usize,
    n: i64,
    k: i64,
}

impl Reader {
    fn peek(&self) -> Option<char> {
        self.rest.get(self.at).copied()
    }

    fn takes(&mut self, c: char) -> bool {
        let there = self.peek() == Some(c);
        self.at += usize::from(there);
        there
    }

    fn sum(&mut self) -> Option<i64> {
        let mut value = self.product()?;
        loop {
            if self.takes('+') {
                value += self.product()?;
            } else if self.takes('-') {
                value -= self.product()?;
            } else {
                return Some(value);
            }
        }
    }

    fn product(&mut self) -> Option<i64> {
        let mut value = self.power()?;
        while self.takes('×') || self.peek() == Some('(') {
            value *= self.power()?;
        }
        Some(value)
    }

    fn power(&mut self) -> Option<i64> {
        let base = self.one()?;
        match self.takes('^') {
            true => base.checked_pow(u32::try_from(self.one()?).ok()?),
            false => Some(base),
        }
    }

    fn one(&mut self) -> Option<i64> {
        if self.takes('(') {
            let value = self.sum()?;
            return self.takes(')').then_some(value);
        }
        if self.takes('n') {
            return Some(self.n);
        }
        if self.takes('k') {
            return Some(self.k);
        }
        let digits: String =
            self.rest[self.at..].iter().take_while(|c| c.is_ascii_digit()).collect();
        self.at += digits.len();
        digits.parse().ok()
    }
}
