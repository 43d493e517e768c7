//! The colour account of a diffused picture: where the colour that was taken
//! away or put in went, channel by channel, in sixteenths.

use crate::model::{ATKINSON, Picture, Pixel};

/// The five terms. The first is the sum of the other four.
#[derive(Debug, Clone, Copy, PartialEq, Eq, Default)]
pub struct Account {
    /// Source less normalised choice, over dithered pixels.
    pub source_less_chosen: i64,
    /// Rounding and clipping.
    pub losses: i64,
    /// Sent to pixels that are not dithered.
    pub to_skipped: i64,
    /// Sent past the picture's edges.
    pub dropped: i64,
    /// Atkinson's weight of 4 that is not sent.
    pub held_back: i64,
}

impl Account {
    pub fn balances(&self) -> bool {
        self.source_less_chosen == self.losses + self.to_skipped + self.dropped + self.held_back
    }
}

/// 16 * source + cell: what a pixel has to spend, in sixteenths. The cell is read as
/// it stands: it counts them.
pub fn held(pixel: &Pixel, channel: usize) -> i64 {
    16 * i64::from(pixel.source[channel]) + i64::from(pixel.cell[channel])
}

/// What rounding and clipping take away at a dithered pixel.
pub fn loss(pixel: &Pixel, channel: usize) -> i64 {
    held(pixel, channel) - 16 * i64::from(pixel.biased[channel])
}

/// The account of one channel.
pub fn account(picture: &Picture, drawn: &[Pixel], channel: usize) -> Account {
    let mut sum = Account::default();
    for (i, pixel) in drawn.iter().enumerate().filter(|(_, p)| p.dithered) {
        let residual = i64::from(pixel.residual[channel]);
        let chosen = i64::from(pixel.biased[channel]) - residual;
        sum.source_less_chosen += 16 * (i64::from(pixel.source[channel]) - chosen);
        sum.losses += loss(pixel, channel);
        for (target, weight) in picture.sends(i) {
            let sent = i64::from(weight) * residual;
            match target {
                None => sum.dropped += sent,
                Some(j) if !drawn[j].dithered => sum.to_skipped += sent,
                Some(_) => {}
            }
        }
        if picture.kind == ATKINSON {
            sum.held_back += 4 * residual;
        }
    }
    sum
}
