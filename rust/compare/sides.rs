//! One image on either side, libdock.a's and the crate's, kept from call to call: for images that are too large to be copied for each.
use crate::face::{self, Answer};
use crate::lent::{self, Lent, numbers};
use crate::{answer_of, looks};
use judge::{Call, Case, Shape, Store, judge_given};
use std::fmt::{Display, Formatter, Result as Formatted};

/// An image of up to so many bytes is kept as it was before a call, so that a case that differs can be made smaller and shown.
const SHOWN: usize = 1 << 16;

/// Why a run ended before its end.
pub enum End {
    /// the two sides differ in a call: what is to be said of it, and the case where it can be shown
    Different(String, Option<Box<Case>>),
    /// the calls did not do what they were chosen for
    Missed(String),
}

/// A call without its image.
#[derive(Clone)]
pub struct Asked {
    pub call: Call,
    pub overwrite: bool,
    pub limit: Option<usize>,
    pub slip: Vec<u8>,
    /// how long the buffer is
    pub buffer: usize,
}

impl Asked {
    pub fn plain(call: Call) -> Asked {
        Asked {
            call,
            overwrite: false,
            limit: None,
            slip: vec![],
            buffer: 0,
        }
    }

    pub fn push(slip: Vec<u8>) -> Asked {
        Asked {
            slip,
            ..Asked::plain(Call::Push)
        }
    }

    pub fn peek(buffer: usize) -> Asked {
        Asked {
            buffer,
            ..Asked::plain(Call::Peek)
        }
    }

    pub fn pop(buffer: usize) -> Asked {
        Asked {
            buffer,
            ..Asked::plain(Call::Pop)
        }
    }

    pub fn over(self) -> Asked {
        Asked {
            overwrite: true,
            ..self
        }
    }

    pub fn cut(self, limit: usize) -> Asked {
        Asked {
            limit: Some(limit),
            ..self
        }
    }
}

impl Display for Asked {
    fn fmt(&self, f: &mut Formatter) -> Formatted {
        write!(f, "{}", self.call)?;
        match self.call {
            Call::Push => write!(f, " of {} bytes", self.slip.len())?,
            Call::Peek | Call::Pop => write!(f, " with a buffer of {}", self.buffer)?,
            _ => (),
        }
        if self.overwrite {
            write!(f, ", overwriting")?;
        }
        match self.limit {
            None => Ok(()),
            Some(limit) => write!(f, ", limit {limit}"),
        }
    }
}

pub struct Sides {
    pub shape: Shape,
    ours: Lent,
    theirs: Vec<u8>,
    pub tale: Tale,
}

impl Sides {
    /// The range is erased. What stands before it and behind it has to stay.
    pub fn erased(shape: Shape) -> Sides {
        let mut image = vec![0x3c; shape.end as usize + shape.start as usize / 7];
        image[shape.start as usize..shape.end as usize].fill(0xff);
        let pages = ((shape.end - shape.start) / shape.page) as usize;
        Sides {
            shape,
            ours: Lent::of(&image),
            theirs: image,
            tale: Tale::of(pages),
        }
    }

    /// Changes both images alike.
    pub fn lay(&mut self, lay: impl Fn(&mut [u8])) {
        lay(self.ours.bytes_mut());
        lay(&mut self.theirs);
    }

    /// Makes a call on both images. The numbers of its answer, where nothing differs.
    pub fn ask(&mut self, asked: Asked) -> Result<Vec<u32>, End> {
        let before = (self.theirs.len() <= SHOWN).then(|| self.theirs.clone());
        let mut case = self.case(&asked);
        let mut buffer = Lent::of(&case.buffer);
        let (answer, is_astray) = lent::ask(&case, &mut self.ours, &mut buffer);
        let shown = before.map(|image| {
            Box::new(Case {
                image,
                ..case.clone()
            })
        });
        case.image = std::mem::take(&mut self.theirs);
        let outcome = judge_given(case);
        self.theirs = outcome.image;
        if let Some(name) = outcome.failure {
            return Err(End::Missed(format!("{asked}: no answer, {name}")));
        }
        let numbers = outcome.numbers;
        self.tale
            .tell(&self.shape, asked.call, &numbers, &outcome.stores);
        let answers = (answer, answer_of(asked.call, &numbers));
        match self.different(answers, (buffer.bytes(), &outcome.buffer), is_astray) {
            None => Ok(numbers),
            Some(what) => {
                let what = format!("call {}, {asked}: {what}", self.tale.calls);
                Err(End::Different(what, shown))
            }
        }
    }

    /// Holds what libdock.a says of the shape, and sees of the pages, against what it should.
    pub fn look(&mut self) -> Result<(), End> {
        let case = Case {
            image: self.theirs.clone(),
            ..self.case(&Asked::plain(Call::SpaceLeft))
        };
        let checked = face::check(case.image.len(), numbers(&self.shape));
        if checked != (Answer { row: 0, value: 0 }) {
            let what = format!("the check of the shape: {checked:?}");
            return Err(End::Different(what, None));
        }
        for look in looks(&case) {
            self.tale.looks += 1;
            if look.found != look.expected {
                return Err(End::Different(look.to_string(), None));
            }
        }
        Ok(())
    }

    /// The call as a case whose image is still to come.
    fn case(&self, asked: &Asked) -> Case {
        Case {
            call: asked.call,
            shape: self.shape,
            limit: asked.limit,
            overwrite: asked.overwrite,
            image: vec![],
            slip: asked.slip.clone(),
            buffer: vec![0xa5; asked.buffer],
        }
    }

    /// What differs after a call: of each pair the first is libdock.a's.
    fn different(
        &self,
        answers: (Answer, Answer),
        buffers: (&[u8], &[u8]),
        is_astray: bool,
    ) -> Option<String> {
        if is_astray {
            Some("a byte changed that was not lent to be changed".into())
        } else if answers.0 != answers.1 {
            Some(format!("{:?}, not {:?}", answers.0, answers.1))
        } else if self.ours.bytes() != self.theirs {
            let at = first_other(self.ours.bytes(), &self.theirs);
            Some(format!("the image, first at {at}"))
        } else if buffers.0 != buffers.1 {
            let at = first_other(buffers.0, buffers.1);
            Some(format!("the buffer, first at {at}"))
        } else {
            None
        }
    }

    pub fn word(&self) -> usize {
        self.shape.word as usize
    }

    pub fn page(&self) -> usize {
        self.shape.page as usize
    }

    pub fn pages(&self) -> usize {
        self.tale.begun.len()
    }

    /// The longest slip of a page.
    pub fn longest(&self) -> usize {
        self.page() - 2 * self.word() - 8_usize.next_multiple_of(self.word())
    }
}

fn first_other(ours: &[u8], theirs: &[u8]) -> usize {
    let mut pairs = ours.iter().zip(theirs);
    pairs
        .position(|(our, their)| our != their)
        .unwrap_or(ours.len().min(theirs.len()))
}

/// What was done, by what the crate answered and stored.
pub struct Tale {
    pub calls: usize,
    looks: usize,
    cut: usize,
    pushed: usize,
    popped: usize,
    /// how often each page got its start mark
    begun: Vec<usize>,
    /// how often each page was erased by another call than `erase_all`
    erased: Vec<usize>,
    /// the page that last got its start mark
    pub youngest: usize,
    /// how often the start marks went on from the last page to page 0
    rounds: usize,
}

impl Tale {
    fn of(pages: usize) -> Tale {
        Tale {
            calls: 0,
            looks: 0,
            cut: 0,
            pushed: 0,
            popped: 0,
            begun: vec![0; pages],
            erased: vec![0; pages],
            youngest: 0,
            rounds: 0,
        }
    }

    fn tell(&mut self, shape: &Shape, call: Call, numbers: &[u32], stores: &[Store]) {
        self.calls += 1;
        self.cut += usize::from(numbers[0] == 7);
        self.pushed += usize::from(call == Call::Push && numbers[0] == 0);
        self.popped += usize::from(call == Call::Pop && numbers[0] == 0);
        for store in stores {
            match store {
                Store::Page(_) if call == Call::EraseAll => (),
                Store::Page(page) => self.erased[*page as usize] += 1,
                Store::Word(address) => {
                    let at = address - shape.start;
                    if at.is_multiple_of(shape.page) {
                        self.begin((at / shape.page) as usize);
                    }
                }
            }
        }
    }

    fn begin(&mut self, page: usize) {
        let is_past_the_last = page == 0 && self.youngest + 1 == self.begun.len();
        self.rounds += usize::from(is_past_the_last && self.begun[0] > 0);
        self.begun[page] += 1;
        self.youngest = page;
    }

    /// Whether page 0 followed the last page twice, every page was begun twice, and every page but the last to be emptied was erased
    /// twice.
    pub fn is_twice_round(&self) -> bool {
        let twice = |counts: &[usize]| counts.iter().filter(|count| **count >= 2).count();
        let pages = self.begun.len();
        self.rounds >= 2 && twice(&self.begun) == pages && twice(&self.erased) + 1 >= pages
    }
}

impl Display for Tale {
    fn fmt(&self, f: &mut Formatter) -> Formatted {
        let Tale {
            calls,
            looks,
            cut,
            pushed,
            popped,
            rounds,
            ..
        } = self;
        let sum = |counts: &[usize]| counts.iter().sum::<usize>();
        let (begun, erased) = (sum(&self.begun), sum(&self.erased));
        write!(f, "{calls} calls, {cut} of them cut, {looks} looks; ")?;
        write!(f, "slips: {pushed} pushed, {popped} popped; ")?;
        write!(f, "pages: {begun} begun, {erased} erased; ")?;
        write!(f, "on to page 0 again: {rounds}")
    }
}
