//! What compare prints, read back: its sections, the records that each reports, and the sums, as numbers.

/// A figure by its name with its grams in old and in new; where it stands alone both are the same.
pub type Figure = (String, i128, i128);

/// A record that is reported: its kind's name, which books have it, and its figures.
#[derive(Clone, Debug)]
pub struct Record {
    pub name: String,
    pub old: bool,
    pub new: bool,
    pub figures: Vec<Figure>,
}

/// Subtotals or totals: the words after the name, and the figures.
#[derive(Clone, Debug, PartialEq, Eq)]
pub struct Sums {
    pub words: String,
    pub figures: Vec<Figure>,
}

/// A group, 0 for what stands before the groups: records, how many more are only counted, and the subtotal.
#[derive(Clone, Debug)]
pub struct Section {
    pub group: u16,
    pub records: Vec<Record>,
    pub counted: usize,
    pub subtotal: Option<Sums>,
}

#[derive(Clone, Debug, Default)]
pub struct Reported {
    pub sections: Vec<Section>,
    pub total: Option<Sums>,
}

/// What the figures belong to that are read next.
enum Under {
    Nothing,
    Record,
    Subtotal,
    Total,
}

fn grams(text: &str) -> Option<i128> {
    let (whole, parts) = text.split_once('.')?;
    (parts.len() == 3).then(|| format!("{whole}{parts}").parse().ok())?
}

/// `  CH4 434.501 kg, now 434.516, +0.015`, whose difference is tested, or `  CH4 434.501 kg`.
fn figure(line: &str) -> Option<Figure> {
    let (old, new) = line.strip_prefix("  ")?.split_once(" kg")?;
    let (name, x) = old.rsplit_once(' ')?;
    let x = grams(x)?;
    let y = match new.strip_prefix(", now ") {
        None if new.is_empty() => x,
        more => {
            let (y, z) = more?.split_once(", ")?;
            let (y, z) = (grams(y)?, grams(z.strip_prefix('+').unwrap_or(z))?);
            (y - x == z && z != 0).then_some(y)?
        }
    };
    Some((name.to_string(), x, y))
}

/// The group of a section's first line.
fn section_of(line: &str) -> Option<u16> {
    if line == "before the groups:" {
        return Some(0);
    }
    let rest = line.strip_prefix("group ")?.strip_suffix(':')?;
    rest.split(", ").next()?.parse().ok()
}

/// `record 2, now 3, enteric: ..`, `old record 2, enteric: ..`.
fn record_of(line: &str) -> Option<Record> {
    let (front, _) = line.split_once(": ")?;
    let (old, new) = (!front.starts_with("new record "), !front.starts_with("old record "));
    let front = if old && new { front } else { &front[4..] };
    let words: Vec<&str> = front.strip_prefix("record ")?.split(", ").collect();
    let name = words.last().filter(|_| words.len() > 1)?.to_string();
    Some(Record { name, old, new, figures: Vec::new() })
}

/// How many records a line counts that give other lines, or may.
fn counted(line: &str) -> Option<usize> {
    if line == "1 record is the same and gives another line" {
        return Some(1);
    }
    if let Some(count) = line.strip_suffix(" records are the same and give other lines") {
        return count.parse().ok();
    }
    let (numbers, heading) =
        line.strip_prefix("records ")?.split_once(" are the same in another order")?;
    let (first, last) = numbers.split_once(" to ")?;
    let count = last.parse::<usize>().ok()? + 1 - first.parse::<usize>().ok()?;
    Some(if heading.ends_with(", under a changed heading") { count } else { 0 })
}

struct Reader {
    reported: Reported,
    under: Under,
}

impl Reader {
    fn take(&mut self, line: &str) -> Option<()> {
        if self.reported.total.is_none() && line.starts_with("total") {
            let words = line["total".len()..].to_string();
            self.reported.total = Some(Sums { words, figures: Vec::new() });
            self.under = Under::Total;
        } else if let Some(group) = section_of(line) {
            let section = Section { group, records: Vec::new(), counted: 0, subtotal: None };
            self.reported.sections.push(section);
            self.under = Under::Nothing;
        } else if line.starts_with("  ") {
            self.figures()?.push(figure(line)?);
        } else {
            self.in_section(line)?;
        }
        Some(())
    }

    fn figures(&mut self) -> Option<&mut Vec<Figure>> {
        let Reported { sections, total } = &mut self.reported;
        match self.under {
            Under::Nothing => None,
            Under::Record => Some(&mut sections.last_mut()?.records.last_mut()?.figures),
            Under::Subtotal => Some(&mut sections.last_mut()?.subtotal.as_mut()?.figures),
            Under::Total => Some(&mut total.as_mut()?.figures),
        }
    }

    fn in_section(&mut self, line: &str) -> Option<()> {
        let section = self.reported.sections.last_mut()?;
        if let Some(words) = line.strip_prefix("subtotal") {
            section.subtotal = Some(Sums { words: words.to_string(), figures: Vec::new() });
            self.under = Under::Subtotal;
        } else if let Some(count) = counted(line) {
            section.counted += count;
            self.under = Under::Nothing;
        } else {
            section.records.push(record_of(line)?);
            self.under = Under::Record;
        }
        Some(())
    }
}

/// The two verdicts come first and the last word last; the groups rise; a line that is none of these is a fault.
pub fn read(said: &str) -> Result<Reported, String> {
    let lines: Vec<&str> = said.lines().collect();
    let [old, new, reported @ .., last] = &lines[..] else {
        return Err("there are fewer than three lines".to_string());
    };
    let ends = ["nothing differs", "no accepted record differs", "all else is the same"];
    if !old.starts_with("old: ") || !new.starts_with("new: ") || !ends.contains(last) {
        return Err("the first or the last lines are not as they should be".to_string());
    }
    let mut reader = Reader { reported: Reported::default(), under: Under::Nothing };
    for line in reported {
        reader.take(line).ok_or_else(|| format!("a line that is none of compare's: {line}"))?;
    }
    if reader.reported.sections.windows(2).any(|pair| pair[0].group >= pair[1].group) {
        return Err("the groups do not rise".to_string());
    }
    Ok(reader.reported)
}
