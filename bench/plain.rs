// A plain Rust reader of the format: the second program that the proved one is held to, in speed and in answers.

#[derive(Clone, Copy, PartialEq, Debug)]
pub enum Making {
    Input,
    Constant(bool),
    Copy(u32),
    Inversion(u32),
    Sum(u32, u32),
    Product(u32, u32),
}

#[derive(Clone, Copy, PartialEq, Debug)]
pub struct Entry {
    pub making: Making,
    pub name: u32,
}

#[derive(Clone, Copy, PartialEq, Debug)]
pub struct Fault {
    pub refusal: u32,
    pub line: usize,
    pub byte: usize,
}

#[derive(Clone, Copy, PartialEq, Debug)]
pub struct Counts {
    pub gates: u32,
    pub wires: u32,
    pub inputs: u32,
    pub outputs: u32,
}

struct Source<'a> {
    text: &'a [u8],
    at: usize,
    line: usize,
}

enum Token<'a> {
    Word(&'a [u8], usize),
    End(usize),
}

impl<'a> Source<'a> {
    fn fault(&self, refusal: u32, byte: usize) -> Fault {
        Fault { refusal, line: self.line, byte }
    }

    fn skip_lines(&mut self) {
        while self.at < self.text.len() {
            match self.text[self.at] {
                10 => self.line += 1,
                9 | 13 | 32 => {}
                _ => break,
            }
            self.at += 1;
        }
    }

    fn token(&mut self) -> Result<Token<'a>, Fault> {
        while self.at < self.text.len() && matches!(self.text[self.at], 9 | 13 | 32) {
            self.at += 1;
        }
        let from = self.at;
        while self.at < self.text.len() && (33..=126).contains(&self.text[self.at]) {
            self.at += 1;
        }
        if from < self.at {
            return Ok(Token::Word(&self.text[from..self.at], from));
        }
        if from < self.text.len() && self.text[from] != 10 {
            return Err(self.fault(2, from));
        }
        Ok(Token::End(from))
    }

    fn number(&mut self) -> Result<(u32, usize), Fault> {
        match self.token()? {
            Token::End(at) => Err(self.fault(3, at)),
            Token::Word(bytes, at) => {
                if bytes.len() > 10 {
                    return Err(self.fault(3, at));
                }
                let mut n = 0u64;
                for b in bytes {
                    if !b.is_ascii_digit() {
                        return Err(self.fault(3, at));
                    }
                    n = n * 10 + u64::from(b - b'0');
                }
                match u32::try_from(n) {
                    Ok(n) => Ok((n, at)),
                    Err(_) => Err(self.fault(3, at)),
                }
            }
        }
    }

    fn end(&mut self) -> Result<(), Fault> {
        match self.token()? {
            Token::End(_) => Ok(()),
            Token::Word(_, at) => Err(self.fault(9, at)),
        }
    }

    fn widths(&mut self, wires: u32) -> Result<u32, Fault> {
        self.skip_lines();
        let (count, at) = self.number()?;
        if count > 64 {
            return Err(self.fault(5, at));
        }
        let mut sum = 0u32;
        for _ in 0..count {
            let (width, at) = self.number()?;
            if width < 1 || width > wires - sum {
                return Err(self.fault(14, at));
            }
            sum += width;
        }
        self.end()?;
        Ok(sum)
    }

    // One gate line, with the numbers of its wires in a row that is used again for each line.
    fn gate(&mut self, row: &mut Vec<(u32, usize)>, table: &mut [Entry], ranks: &mut [u32], made: &mut usize) -> Result<(), Fault> {
        let wires = table.len();
        let (ins, first) = self.number()?;
        let (outs, _) = self.number()?;
        row.clear();
        for _ in 0..u64::from(ins) + u64::from(outs) {
            row.push(self.number()?);
        }
        let (ins, outs) = (ins as usize, outs as usize);
        let (word, at) = match self.token()? {
            Token::Word(bytes, at) => (bytes, at),
            Token::End(at) => return Err(self.fault(4, at)),
        };
        let counts = match word {
            b"AND" | b"XOR" => ins == 2 && outs == 1,
            b"INV" | b"EQ" | b"EQW" => ins == 1 && outs == 1,
            b"MAND" => outs >= 1 && ins == 2 * outs,
            _ => return Err(self.fault(4, at)),
        };
        self.end()?;
        if !counts {
            return Err(self.fault(6, first));
        }
        let is_made = |ranks: &[u32], n: u32| (n as usize) < wires && (ranks[n as usize] as usize) < wires;
        for &(n, at) in &row[..ins] {
            let good = if word == b"EQ" { n <= 1 } else { is_made(ranks, n) };
            if !good {
                return Err(self.fault(7, at));
            }
        }
        for j in 0..outs {
            let (n, at) = row[ins + j];
            if n as usize >= wires || is_made(ranks, n) {
                return Err(self.fault(8, at));
            }
            let a = row[j].0;
            let making = match word {
                b"AND" | b"MAND" => Making::Product(ranks[a as usize], ranks[row[outs + j].0 as usize]),
                b"XOR" => Making::Sum(ranks[a as usize], ranks[row[outs + j].0 as usize]),
                b"INV" => Making::Inversion(ranks[a as usize]),
                b"EQW" => Making::Copy(ranks[a as usize]),
                _ => Making::Constant(a == 1),
            };
            table[*made] = Entry { making, name: n };
            ranks[n as usize] = *made as u32;
            *made += 1;
        }
        Ok(())
    }

    fn body(&mut self, c: Counts, table: &mut [Entry], ranks: &mut [u32]) -> Result<(), Fault> {
        ranks.fill(c.wires);
        for i in 0..c.inputs {
            table[i as usize] = Entry { making: Making::Input, name: i };
            ranks[i as usize] = i;
        }
        let mut made = c.inputs as usize;
        let mut row = Vec::new();
        for _ in 0..c.gates {
            self.skip_lines();
            if self.at == self.text.len() {
                return Err(self.fault(10, self.at));
            }
            self.gate(&mut row, table, ranks, &mut made)?;
        }
        self.skip_lines();
        match self.token()? {
            Token::Word(_, at) => Err(self.fault(10, at)),
            Token::End(at) if made < table.len() => Err(self.fault(10, at)),
            Token::End(_) => Ok(()),
        }
    }
}

pub fn read(text: &[u8], limit: usize, table: &mut [Entry], ranks: &mut [u32]) -> Result<Counts, Fault> {
    if text.len() > limit || text.len() > 67_108_864 {
        return Err(Fault { refusal: 1, line: 1, byte: 0 });
    }
    let mut source = Source { text, at: 0, line: 1 };
    source.skip_lines();
    let (gates, _) = source.number()?;
    let (wires, at) = source.number()?;
    let line = source.line;
    if wires < 1 || wires > 1_048_576 {
        return Err(source.fault(5, at));
    }
    source.end()?;
    let inputs = source.widths(wires)?;
    let outputs = source.widths(wires)?;
    let w = wires as usize;
    if table.len() < w || ranks.len() < w {
        return Err(Fault { refusal: 11, line, byte: at });
    }
    let counts = Counts { gates, wires, inputs, outputs };
    match source.body(counts, &mut table[..w], &mut ranks[..w]) {
        Ok(()) => Ok(counts),
        Err(fault) => {
            table[..w].fill(Entry { making: Making::Constant(false), name: 0 });
            ranks[..w].fill(0);
            Err(fault)
        }
    }
}
