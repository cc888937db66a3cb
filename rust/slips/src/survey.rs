//! Which slips pops would show, and what they would pass by.
use crate::page::{Page, pages, unreadable};
use crate::show::{counted, numbered};
use slipq::{Error, Item, ItemState, PageState, Queue, Shape};
use std::collections::HashSet;

/// The pages, and what pops show of them.
pub struct Survey {
    pub shape: Shape,
    pub pages: Vec<Page>,
    /// the oldest page and the current one, if the marks say
    pub ends: Option<(u32, u32)>,
    /// what pops show, in their order
    pub list: Vec<Item>,
    /// why the pops ended before the list did
    pub refusal: Option<Error>,
    on_list: HashSet<u32>,
}

impl Survey {
    /// The image stays as it is: the pops are made on a copy.
    pub fn of(image: &[u8], shape: Shape) -> Survey {
        let mut copy = image.to_vec();
        let pages = pages(&mut copy, shape);
        let states: Vec<PageState> = pages.iter().map(|page| page.state).collect();
        let waiting: Vec<Item> = pages
            .iter()
            .flat_map(|page| &page.items)
            .filter(|item| item.state == ItemState::Waits)
            .copied()
            .collect();
        let (list, refusal) = popped(&mut copy, shape, &waiting);
        Survey {
            shape,
            ends: ends(&states),
            on_list: list.iter().map(|item| item.address).collect(),
            pages,
            list,
            refusal,
        }
    }

    pub fn is_on_list(&self, item: &Item) -> bool {
        self.on_list.contains(&item.address)
    }

    /// How many slips of a page wait, and no pop shows them.
    pub fn off_list(&self, page: &Page) -> usize {
        let waits = |item: &&Item| item.state == ItemState::Waits && !self.is_on_list(item);
        page.items.iter().filter(waits).count()
    }

    /// What pops pass by, a line each.
    pub fn passed(&self) -> Vec<String> {
        let mut lines = vec![];
        let torn: usize = self
            .pages
            .iter()
            .map(|page| page.count(ItemState::Torn))
            .sum();
        if torn > 0 {
            let has_torn = |page: &&Page| page.count(ItemState::Torn) > 0;
            let pages: Vec<u32> = self
                .pages
                .iter()
                .filter(has_torn)
                .map(|page| page.number)
                .collect();
            let torn = counted(torn, "torn slip", "torn slips");
            lines.push(format!("passed by: {torn} on {}", numbered(&pages)));
        }
        lines.extend(unreadable(&self.pages));
        lines.extend(
            self.pages
                .iter()
                .filter_map(|page| self.off_list_line(page)),
        );
        lines
    }

    fn off_list_line(&self, page: &Page) -> Option<String> {
        let number = page.number;
        let slips = match self.off_list(page) {
            0 if page.state == PageState::Corrupted => "no whole slip".into(),
            0 => return None,
            count => counted(count, "whole slip", "whole slips"),
        };
        Some(match page.state {
            PageState::Corrupted => format!(
                "page {number} is corrupted (its last mark alone is set) and has {slips}: a repair erases it; list --raw shows it"
            ),
            PageState::Open => format!(
                "page {number} is open (neither mark is set), yet has {slips}, not on the list; list --raw shows it"
            ),
            _ if self.refusal.is_some() => {
                format!("page {number} has {slips} that no pop comes to; list --raw shows it")
            }
            _ => format!(
                "page {number} is beyond a hole in the ring: {slips} not on the list; list --raw shows it"
            ),
        })
    }
}

/// What pops show: they are made until none is left, and each is found again among the items by the data CRC that it set to 0.
fn popped(image: &mut [u8], shape: Shape, waiting: &[Item]) -> (Vec<Item>, Option<Error>) {
    let mut queue = Queue::new(image, shape).expect("the shape was checked");
    let mut buffer = vec![0; shape.page as usize];
    let mut is_taken = vec![false; waiting.len()];
    let (mut list, mut at) = (vec![], 0);
    loop {
        match queue.pop(&mut buffer) {
            Ok(None) => return (list, None),
            Err(error) => return (list, Some(error)),
            Ok(Some(_)) => (),
        }
        let image = queue.image();
        let is_popped = |index: &usize| {
            let crc = &image[waiting[*index].address as usize..][..4];
            !is_taken[*index] && crc == [0; 4]
        };
        // pops go round from page to page, so the next one is mostly the next item
        let found = (at..waiting.len()).chain(0..at).find(is_popped);
        if let Some(found) = found {
            is_taken[found] = true;
            list.push(waiting[found]);
            at = found + 1;
        }
    }
}

/// The oldest page and the current one, by document 01's rules. A Corrupted page counts as Open: a search that reaches it makes a repair
/// first, and one that does not never asks.
pub fn ends(states: &[PageState]) -> Option<(u32, u32)> {
    let count = states.len();
    let round = |from: usize| (from..count).chain(0..from);
    let is = |state: PageState| move |page: &usize| states[*page] == state;
    let is_open = |page: &usize| matches!(states[*page], PageState::Open | PageState::Corrupted);
    let first_closed = (0..count).find(is(PageState::Closed));
    let youngest = match ((0..count).find(is(PageState::PartialOpen)), first_closed) {
        (Some(partial), _) => partial,
        (None, Some(closed)) => round(closed).find(is_open)?,
        (None, None) => 0,
    };
    let oldest = round(youngest)
        .find(is(PageState::Closed))
        .unwrap_or(youngest);
    Some((oldest as u32, youngest as u32))
}

#[cfg(test)]
mod tests {
    use super::*;
    use PageState::{Closed, Corrupted, Open, PartialOpen};

    #[test]
    fn the_ring_has_an_oldest_and_a_current_page() {
        assert_eq!(ends(&[Open, Open]), Some((0, 0)));
        assert_eq!(ends(&[Closed, PartialOpen, Open]), Some((0, 1)));
        assert_eq!(ends(&[PartialOpen, Closed, Closed]), Some((1, 0)));
        assert_eq!(ends(&[Closed, Open, Closed]), Some((2, 1)));
        assert_eq!(ends(&[Closed, Corrupted, Closed]), Some((2, 1)));
        assert_eq!(ends(&[Closed, Closed]), None);
    }

    #[test]
    fn a_page_beyond_a_hole_and_a_corrupted_one_are_passed() {
        let shape = Shape::of(4, 64, 4);
        let mut image = vec![0xff; 256];
        let mut queue = Queue::new(&mut image, shape).unwrap();
        for slip in [
            b"a sixteen letters",
            b"b sixteen letters",
            b"c sixteen letters",
        ] {
            queue.push(slip, false).unwrap();
            queue.push(slip, false).unwrap();
        }
        image[64..68].fill(0xff);
        let survey = Survey::of(&image, shape);
        assert_eq!(survey.list.len(), 2);
        assert_eq!(survey.ends, Some((0, 2)));
        let passed = survey.passed();
        assert!(passed[0].starts_with("page 1 is corrupted"), "{passed:?}");
        assert!(
            passed[1].starts_with("page 2 is beyond a hole"),
            "{passed:?}"
        );
        assert_eq!(passed.len(), 2);
    }
}
