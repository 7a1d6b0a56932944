//! The beginning of an episode: which book it has, who trades, and for how long.

use super::{flip_and_reseal, senders_of, Climber, Episode, Generator, BEYOND_CLIMB};
use crate::block::*;
use crate::breach::{break_book, Breach};
use crate::clause::cases;
use crate::counts::{DAY_START, LONGEST_LEAD};
use crate::crafted::{self, Shape};
use crate::draft::{Draft, Growth, New, Version};
use crate::names;
use crate::random::Random;
use crate::sound::{is_sound, FEWEST_BLOCKS, MOST_BLOCKS, NS};
use crate::stream::{Opening, Record, MOST_TEXT_BYTES};
use crate::versions::kept_version;

cases! {
    /// A rule that there is not, alone or with something else wrong.
    WrongRule {
        Next,
        Highest,
        Other,
        AndCode,
        AndOther,
    }
}

cases! {
    /// What is tried on a buffer that no book can have.
    OpeningInVain {
        NoRule,
        Rule,
        WrongCode,
        WrongRule,
    }
}

impl Generator {
    pub(super) fn start_episode(&mut self, book: &[u8]) {
        // What the book held is sometimes shown before it goes; a long one only rarely.
        let shown = if book.len() <= 64 * BLOCK_BYTES { 150 } else { 10 };
        if self.random.below(1_000) < shown {
            self.queue.push_back(Record::Book);
        }
        self.climber = None;
        self.large_messages = 0;
        if self.whole_climb {
            self.whole_climb = false;
            self.begin(Episode::Climb);
            self.opened_book();
            self.start_climb(self.partners[0], 0);
            return;
        }
        let episode = self.episodes.deal(&mut self.random);
        self.begin(episode);
        match episode {
            Episode::Climb => self.crafted_climb(book),
            Episode::Limit(_) | Episode::Two => self.opened_book(),
            Episode::Full if self.random.percent(50) => self.crafted_episode(book),
            _ if self.random.percent(22) => self.crafted_episode(book),
            _ => self.opened_book(),
        }
    }

    /// Chooses the partners of an episode and how long it lasts.
    pub(super) fn begin(&mut self, episode: Episode) {
        self.episode = episode;
        let random = &mut self.random;
        random.shuffle(&mut self.pool);
        let (partners, left) = match episode {
            Episode::Small => (random.between(2, 5), random.between(15, 90)),
            Episode::Middling => (random.between(4, 20), random.between(30, 120)),
            Episode::Long => (random.between(60, 200), random.between(20, 40)),
            Episode::Full => (random.between(202, 240), random.between(14, 24)),
            Episode::Limit(_) => (random.between(202, 240), random.between(9, 14)),
            Episode::Climb => (random.between(2, 4), 0),
            Episode::Two => (random.between(2, 4), random.between(6, 14)),
        };
        self.partners = self.pool[..partners].to_vec();
        self.left = left;
        self.large_messages = match episode {
            Episode::Full => random.between(7, 9),
            Episode::Limit(_) => 6,
            _ => 0,
        };
        self.steps_of_two = if episode == Episode::Two { random.between(4, 8) } else { 0 };
    }

    /// How many blocks a book of this episode gets when it is opened.
    pub(super) fn blocks(&mut self) -> usize {
        let random = &mut self.random;
        match self.episode {
            Episode::Small if random.percent(25) => random.between(FEWEST_BLOCKS, 12),
            Episode::Small => random.between(12, 48),
            Episode::Middling if random.percent(20) => random.pick(&[63, 64, 65, 66]),
            Episode::Middling => random.between(30, 160),
            Episode::Long => random.between(120, 400),
            Episode::Full if random.percent(80) => MOST_BLOCKS,
            Episode::Full => random.between(400, MOST_BLOCKS),
            Episode::Limit(_) => random.between(202, 210),
            Episode::Climb => random.between(6, 12),
            Episode::Two => random.between(7, 20),
        }
    }

    /// Opens a book, after a few attempts that fail.
    pub(super) fn opened_book(&mut self) {
        let length = self.blocks() * BLOCK_BYTES;
        if self.random.percent(40) {
            // No book may have these lengths.
            let wrong = self.random.pick(&[0, 1, 511, 512, 513, 1_025, (length - 1) as u32]);
            self.queue.push_back(Record::Length(wrong));
            let open = match self.openings_in_vain.deal(&mut self.random) {
                OpeningInVain::NoRule => Record::Open(self.parameters()),
                OpeningInVain::Rule => Record::OpenBy { rule: self.some_rule(), opening: self.parameters() },
                OpeningInVain::WrongCode => {
                    let (names_rule, character) = (self.random.percent(50), names::character_number(&mut self.random));
                    self.opening_with_wrong_code(names_rule, character)
                }
                OpeningInVain::WrongRule => self.opening_with_wrong_rule(),
            };
            self.queue.push_back(open);
        }
        self.queue.push_back(Record::Length(length as u32));
        while self.random.percent(73) {
            let open = self.wrong_opening();
            self.queue.push_back(open);
        }
        let open = self.lawful_opening();
        let (lead, n, area) = match &open {
            Record::Open(opening) | Record::OpenBy { opening, .. } => (opening.lead, opening.n, opening.area.clone()),
            _ => (0, 0, Vec::new()),
        };
        self.queue.push_back(open);
        self.queue.push_back(Record::Sum);
        let large = length > 10 * BLOCK_BYTES;
        if large && !matches!(self.episode, Episode::Limit(_) | Episode::Two) && self.random.percent(45) {
            let mut day = [0; BLOCK_BYTES];
            day[N] = n;
            day[AREA..AREA + 16].copy_from_slice(&area);
            let number = self.random.between(1, 3);
            self.first_rights(&day, number);
        }
        if !matches!(self.episode, Episode::Limit(_) | Episode::Two) && self.random.percent(35) {
            // The clock starts somewhere in the day already.
            let position = self.random.between(1, 60) as u16;
            self.queue.push_back(Record::Clock(DAY_START + 15 * position - lead));
        }
    }

    /// An opening that names a rule, or none.
    pub(super) fn lawful_opening(&mut self) -> Record {
        let opening = Opening { n: self.ns.deal(&mut self.random), ..self.parameters() };
        match self.rules.deal(&mut self.random) {
            None => Record::Open(opening),
            Some(rule) => Record::OpenBy { rule, opening },
        }
    }

    /// Lawful parameters, but for the rule.
    fn parameters(&mut self) -> Opening {
        let random = &mut self.random;
        Opening {
            n: random.pick(&NS),
            lead: crafted::lead(random),
            day: names::day(random).to_vec(),
            area: random.pick(&self.pool).to_vec(),
            receiver: random.pick(&self.pool).to_vec(),
        }
    }

    /// An opening with one unlawful value in it, sometimes two: often a code, or both, wrong at the character that
    /// is next in turn, else a rule that there is not.
    pub(super) fn wrong_opening(&mut self) -> Record {
        match self.random.weighted(&[74, 14, 12]) {
            0 => {
                let (names_rule, character) = self.wrong_openings.deal(&mut self.random);
                self.opening_with_wrong_code(names_rule, character)
            }
            1 => self.opening_with_wrong_rule(),
            _ => self.opening_with_wrong_parameter(),
        }
    }

    /// Some rule that there is.
    fn some_rule(&mut self) -> u8 {
        self.random.pick(&[SELLERS_RULE, LESSER_RULE])
    }

    fn opening_with_wrong_parameter(&mut self) -> Record {
        let mut opening = self.parameters();
        if self.random.percent(60) {
            spoil_n_lead_or_day(&mut self.random, &mut opening);
        } else {
            (0..self.random.between(1, 2)).for_each(|_| self.spoil_parameter(&mut opening));
        }
        if self.random.percent(50) {
            Record::Open(opening)
        } else {
            Record::OpenBy { rule: self.some_rule(), opening }
        }
    }

    /// An opening that tells this character: of the area, of the receiver, or of the area where both are wrong.
    fn opening_with_wrong_code(&mut self, names_rule: bool, character: u8) -> Record {
        let mut opening = self.parameters();
        let random = &mut self.random;
        let wrong = names::wrong_text_at(random, character);
        match random.below(3) {
            0 => opening.area = wrong,
            1 => opening.receiver = wrong,
            _ => {
                let other = names::character_number(random);
                opening.area = wrong;
                opening.receiver = names::wrong_text_at(random, other);
            }
        }
        if random.percent(25) {
            self.spoil_parameter(&mut opening);
        }
        if names_rule {
            Record::OpenBy { rule: self.some_rule(), opening }
        } else {
            Record::Open(opening)
        }
    }

    fn opening_with_wrong_rule(&mut self) -> Record {
        let mut opening = self.parameters();
        let turn = self.wrong_rules.deal(&mut self.random);
        let random = &mut self.random;
        let rule = match turn {
            WrongRule::Next => LESSER_RULE + 1,
            WrongRule::Highest => 255,
            WrongRule::Other => random.between(3, 254) as u8,
            WrongRule::AndCode | WrongRule::AndOther => random.pick(&[2, 2, 3, 128, 255]),
        };
        match turn {
            WrongRule::AndCode => {
                let character = names::character_number(random);
                let code = if random.percent(50) { &mut opening.area } else { &mut opening.receiver };
                *code = names::wrong_text_at(random, character);
            }
            WrongRule::AndOther => spoil_n_lead_or_day(random, &mut opening),
            _ => {}
        }
        Record::OpenBy { rule, opening }
    }

    /// One parameter made unlawful.
    fn spoil_parameter(&mut self, opening: &mut Opening) {
        let random = &mut self.random;
        let code = if random.percent(50) { &mut opening.area } else { &mut opening.receiver };
        match random.below(16) {
            0..=5 => spoil_n_lead_or_day(random, opening),
            6 | 7 => *code = names::invalid_eic(random).to_vec(),
            8..=12 => *code = names::hyphen_eic(random).to_vec(),
            13 | 14 if code.len() < MOST_TEXT_BYTES => code.push(b'0'),
            _ => {
                code.pop();
            }
        }
    }

    /// Opens the book again in the midst of an episode, or tries to.
    pub(super) fn reopen(&mut self) {
        let open = if self.random.percent(85) { self.wrong_opening() } else { self.lawful_opening() };
        self.queue.push_back(open);
        self.queue.push_back(Record::Sum);
    }

    /// An episode on a crafted book: mostly sound, else with one clause broken, or one clause broken
    /// and a second one on top.
    pub(super) fn crafted_episode(&mut self, book: &[u8]) {
        let shape = self.shape();
        let mut target = self.crafted_book(&shape);
        let random = &mut self.random;
        if random.percent(25) {
            let breach = random.pick(Breach::ALL);
            if let Some(broken) = break_book(random, &target, breach) {
                target = broken;
                if random.percent(40) {
                    flip_and_reseal(random, &mut target);
                }
            }
        }
        let sound = is_sound(&target);
        self.set_book(book, &target);
        self.large_messages = self.large_messages.min(6);
        self.left = match self.episode {
            _ if !sound => self.random.between(1, 5),
            Episode::Full | Episode::Long => self.random.between(12, 20),
            _ => self.random.between(4, 40),
        };
        if !sound {
            self.queue.push_back(Record::Sound);
        }
    }

    pub(super) fn shape(&mut self) -> Shape {
        let random = &mut self.random;
        let (senders, fewest_series, most_series, free_slots, rights) = match self.episode {
            Episode::Middling => (random.between(2, 6), 1, 20, random.below(20), random.below(10)),
            Episode::Long => (random.between(1, 3), 21, 150, random.below(100), random.below(30)),
            // All slots are used.
            Episode::Full if random.percent(70) => (5, 199, 199, 0, 0),
            Episode::Full => (4, 190, 200, random.below(201), random.below(100)),
            _ => (random.between(1, 4), 1, random.between(1, 5), random.below(6), random.below(5)),
        };
        let external = random.pick(&[0, 25, 50]);
        Shape { senders, fewest_series, most_series, free_slots, rights, external }
    }

    /// A sound book of this shape; its senders become the partners, with two that are strangers to it.
    pub(super) fn crafted_book(&mut self, shape: &Shape) -> Vec<u8> {
        let book = crafted::sound_book(&mut self.random, &self.pool, shape);
        self.partners = senders_of(&book);
        self.partners.extend_from_slice(&self.pool[..2]);
        book
    }

    /// A crafted book one of whose senders is a few filings away from version 999.
    pub(super) fn crafted_climb(&mut self, book: &[u8]) {
        let shape = self.shape();
        let target = self.crafted_book(&shape);
        let version = self.random.between(989, usize::from(HIGHEST_VERSION) - 1) as u16;
        let (sender, target) = crafted::with_version(&target, version).expect("a crafted book has a sender");
        self.set_book(book, &target);
        self.start_climb(sender, usize::from(version));
    }

    pub(super) fn start_climb(&mut self, sender: Field, version: usize) {
        self.climber = Some(Climber { sender, beyond: BEYOND_CLIMB });
        // The climber ends the episode; the number only bounds it.
        self.left = 2 * (usize::from(HIGHEST_VERSION) - version + BEYOND_CLIMB);
    }

    /// The version after this one in a climb: the next about each multiple of 256 and near the last, else one
    /// that is a few further up.
    fn next_rung(&mut self, kept: u16) -> u16 {
        let slow = (kept + 8) & 255 < 16 || kept + 12 > HIGHEST_VERSION;
        kept + if slow { 1 } else { self.random.between(1, 8) as u16 }
    }

    /// The next filing of the climber, some versions up; in the end there is no version left for it.
    pub(super) fn climb(&mut self, book: &[u8]) {
        let sender = self.climber.as_ref().expect("there is a climber").sender;
        let kept = kept_version(book, &sender).unwrap_or(0);
        let mut version = Version::Exactly(self.next_rung(kept));
        if kept == HIGHEST_VERSION {
            let after = self.random.pick(&[HIGHEST_VERSION + 1, HIGHEST_VERSION, HIGHEST_VERSION - 1]);
            version = Version::Exactly(after);
            self.climber = self.climber.take().filter(|climber| climber.beyond > 1);
            match self.climber.as_mut() {
                None => self.left = 0,
                Some(climber) => climber.beyond -= 1,
            }
        }
        let free = blocks(book).filter(|block| block[KIND] == 0).count();
        let new = New::UpTo(usize::from(free > 2 && self.random.percent(5)));
        let growth = Growth { new, changed: self.random.pick(&[0, 35, 100]), side: None, external: 0, version };
        let draft = Draft::lawful(&mut self.random, book, sender, &self.partners, &growth);
        let message = draft.finished(&mut self.random, &[]);
        if kept >= HIGHEST_VERSION - 1 {
            self.judge_and_show(message.clone());
        }
        self.submit_and_show(book, message);
    }
}

/// One of the parameters that are no codes made unlawful.
fn spoil_n_lead_or_day(random: &mut Random, opening: &mut Opening) {
    match random.below(6) {
        0 => opening.n = random.pick(&[0, 91, 93, 95, 97, 99, 101, 255, 24]),
        1 => opening.lead = random.pick(&[65_535, 2_880]),
        2 | 3 => opening.lead = LONGEST_LEAD + 1,
        4 => {
            if let Some(digit) = opening.day.last_mut() {
                *digit = random.pick(b"/: A\0");
            }
        }
        _ => {
            opening.day.pop();
        }
    }
}
