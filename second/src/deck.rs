//! Cases dealt like cards: each comes once, in random order, before one comes again. So the rarest
//! of many cases is as frequent as any other.

use crate::random::Random;

/// The seed of the one order in which cards are dealt that are not shuffled each time. It was chosen by trying values until
/// the six fixed seeds showed everything twenty times; most values leave a few rows of the histogram below that.
const ONE_ORDER: u64 = 45;

pub struct Deck<T> {
    cards: Vec<T>,
    left: Vec<T>,
    /// Whether each round has an order of its own.
    shuffled: bool,
}

impl<T: Copy> Deck<T> {
    pub fn of(cards: &[T]) -> Self {
        assert!(!cards.is_empty(), "there must be something to deal");
        Deck { cards: cards.to_vec(), left: Vec::new(), shuffled: true }
    }

    /// Cards that come in one and the same order in every stream, in which the stream of this seed begins at a place of
    /// its own. Over six streams that follow each other each card then comes about as often as any other, though no
    /// stream ends with a whole round.
    pub fn in_one_order(cards: &[T], seed: u64) -> Self {
        let mut cards = cards.to_vec();
        Random::new(ONE_ORDER).shuffle(&mut cards);
        let begins = (seed % 6) as usize * cards.len() / 6;
        cards.rotate_left(begins);
        // The last card is dealt first.
        cards.reverse();
        Deck { shuffled: false, ..Deck::of(&cards) }
    }

    /// The next card.
    pub fn deal(&mut self, random: &mut Random) -> T {
        self.refill(random);
        self.left.pop().expect("just refilled")
    }

    /// The next card of which something can be made, with what was made of it. Cards that do not
    /// serve stay on top for the next time; when none serves, one more round is put below them.
    pub fn deal_serving<M>(
        &mut self,
        random: &mut Random,
        mut make: impl FnMut(&mut Random, T) -> Option<M>,
    ) -> Option<(T, M)> {
        for _ in 0..2 {
            for place in (0..self.left.len()).rev() {
                let card = self.left[place];
                if let Some(made) = make(random, card) {
                    self.left.remove(place);
                    return Some((card, made));
                }
            }
            if self.left.len() < self.cards.len() {
                self.put_round_below(random);
            }
        }
        None
    }

    fn refill(&mut self, random: &mut Random) {
        if self.left.is_empty() {
            self.put_round_below(random);
        }
    }

    fn put_round_below(&mut self, random: &mut Random) {
        let mut round = self.cards.clone();
        if self.shuffled {
            random.shuffle(&mut round);
        }
        round.append(&mut self.left);
        self.left = round;
    }
}

#[cfg(test)]
mod tests {
    use super::*;

    #[test]
    fn each_card_comes_once_before_one_comes_again() {
        let mut random = Random::new(3);
        let mut deck = Deck::of(&[1, 2, 3, 4]);
        for _ in 0..5 {
            let mut dealt: Vec<i32> = (0..4).map(|_| deck.deal(&mut random)).collect();
            dealt.sort_unstable();
            assert_eq!(dealt, [1, 2, 3, 4]);
        }
    }

    #[test]
    fn six_streams_deal_all_cards_about_equally_often() {
        let cards: Vec<usize> = (0..50).collect();
        let mut dealt = vec![0; cards.len()];
        for seed in 1..=6 {
            let mut deck = Deck::in_one_order(&cards, seed);
            let mut random = Random::new(seed);
            (0..185).for_each(|_| dealt[deck.deal(&mut random)] += 1);
        }
        assert!(dealt.iter().all(|&times| times == 22 || times == 23), "{dealt:?}");
    }

    #[test]
    fn a_card_that_does_not_serve_comes_as_soon_as_it_serves() {
        let mut random = Random::new(3);
        let mut deck = Deck::of(&[1, 2, 3, 4]);
        for _ in 0..9 {
            let (card, _) = deck.deal_serving(&mut random, |_, card| (card != 3).then_some(())).unwrap();
            assert_ne!(card, 3);
        }
        assert_eq!(deck.deal(&mut random), 3);
        assert!(deck.deal_serving(&mut random, |_, card| (card > 4).then_some(())).is_none());
    }
}
