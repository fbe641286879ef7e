//! Planning sheets: `network,n`, then `leg,tail,head,fee,grade,delay,medium`, then `plan,broker,start,goal,limit`.
use std::fmt;

/// The extra delay of handing over to the equipment of each medium, in microseconds.
const HANDOVERS: [u32; 8] = [0, 5, 12, 20, 35, 60, 90, 150];

#[derive(Clone, Copy, Debug, PartialEq, Eq)]
pub struct Leg {
    pub tail: u16,
    pub head: u16,
    pub fee: u32,
    pub grade: u8,
    pub stated: u32,
    pub medium: u8,
}

impl Leg {
    /// What is stated, and the handover delay of the medium.
    pub fn delay(&self) -> u32 {
        self.stated + HANDOVERS[self.medium as usize]
    }
}

#[derive(Clone, Copy, Debug, PartialEq, Eq)]
pub struct Plan {
    pub broker: u16,
    pub start: u16,
    pub goal: u16,
    pub limit: u32,
}

#[derive(Clone, Debug, Default)]
pub struct Sheet {
    pub sites: usize,
    pub legs: Vec<Leg>,
    pub plans: Vec<Plan>,
}

/// What is wrong with a sheet, and on which line.
#[derive(Debug)]
pub struct Fault {
    pub line: usize,
    pub what: &'static str,
}

impl fmt::Display for Fault {
    fn fmt(&self, f: &mut fmt::Formatter<'_>) -> fmt::Result {
        write!(f, "line {}: {}", self.line, self.what)
    }
}

/// The numbers after a line's word, each at most as large as `most` allows.
fn numbers<const N: usize>(
    fields: &[&str],
    most: [u32; N],
    line: usize,
) -> Result<[u32; N], Fault> {
    let fault = |what| Fault { line, what };
    if fields.len() != N {
        return Err(fault("the number of fields is wrong"));
    }
    let mut values = [0; N];
    for i in 0..N {
        values[i] = fields[i]
            .parse()
            .map_err(|_| fault("a field is not a number"))?;
        if values[i] > most[i] {
            return Err(fault("a field is outside its range"));
        }
    }
    Ok(values)
}

impl Sheet {
    /// Reads a sheet.
    pub fn read(text: &str) -> Result<Sheet, Fault> {
        let mut sheet = Sheet::default();
        for (i, line) in text.lines().enumerate() {
            let fields: Vec<&str> = line.split(',').collect();
            sheet.read_line(fields[0], &fields[1..], i + 1)?;
        }
        if sheet.sites == 0 {
            return Err(Fault {
                line: 1,
                what: "there is no network line",
            });
        }
        Ok(sheet)
    }

    fn read_line(&mut self, word: &str, fields: &[&str], line: usize) -> Result<(), Fault> {
        let last = (self.sites as u32).saturating_sub(1);
        match word {
            "network" if line == 1 => {
                let [sites] = numbers(fields, [1024], line)?;
                self.sites = sites as usize;
            }
            "leg" if self.sites > 0 && self.plans.is_empty() && self.legs.len() < 4096 => {
                let most = [last, last, 1_000_000, 255, 100_000, 7];
                let [tail, head, fee, grade, stated, medium] = numbers(fields, most, line)?;
                self.legs.push(Leg {
                    tail: tail as u16,
                    head: head as u16,
                    fee,
                    grade: grade as u8,
                    stated,
                    medium: medium as u8,
                });
            }
            "plan" if self.sites > 0 => {
                let [broker, start, goal, limit] =
                    numbers(fields, [999, last, last, 1_000_000], line)?;
                self.plans.push(Plan {
                    broker: broker as u16,
                    start: start as u16,
                    goal: goal as u16,
                    limit,
                });
            }
            _ => {
                return Err(Fault {
                    line,
                    what: "a line of this kind may not stand here",
                })
            }
        }
        Ok(())
    }
}

impl fmt::Display for Sheet {
    fn fmt(&self, f: &mut fmt::Formatter<'_>) -> fmt::Result {
        writeln!(f, "network,{}", self.sites)?;
        for leg in &self.legs {
            writeln!(
                f,
                "leg,{},{},{},{},{},{}",
                leg.tail, leg.head, leg.fee, leg.grade, leg.stated, leg.medium
            )?;
        }
        for plan in &self.plans {
            writeln!(
                f,
                "plan,{},{},{},{}",
                plan.broker, plan.start, plan.goal, plan.limit
            )?;
        }
        Ok(())
    }
}
