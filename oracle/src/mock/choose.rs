//! How the mock chooses: conversion, distance, the nearest, the nearest two and
//! the bracket.

use quantette::exact::{as_floats, millionths_with, root_by_halving, root_down};

use super::slip::{Mock, Slip};
use crate::model::{self, Entry};
use crate::original::{Bracket, Lab, Rgba};
use crate::port::Lists;

/// Colour `i` of a list of colours.
pub(super) fn rgba(bytes: &[u8], i: usize) -> Rgba {
    bytes[4 * i..4 * i + 4].try_into().unwrap()
}

impl Mock {
    pub(super) fn entries(&self, lists: Lists) -> Vec<Entry> {
        (0..lists.reduced.len() / 4)
            .map(|i| Entry {
                reduced: rgba(lists.reduced, i),
                normalized: rgba(lists.normalized, i),
                oklab: lists.oklab[3 * i..3 * i + 3].try_into().unwrap(),
            })
            .collect()
    }

    /// The kind by which a number is drawn: its own, save with the slip that gives
    /// the number of a retired kind away.
    pub(super) fn drawn_as(&self, kind: u32) -> u32 {
        if self.has_slip(Slip::StippleVGivenToLineV) && kind == 5 { 7 } else { kind }
    }

    pub(super) fn convert(&self, [r, g, b]: [u8; 3]) -> Lab {
        if self.has_slip(Slip::RootOffByOne) {
            return as_floats(millionths_with(|n| root_by_halving(n) + 1, r, g, b));
        }
        if self.has_slip(Slip::RootDownward) {
            return as_floats(millionths_with(root_down, r, g, b));
        }
        quantette::remembered(r, g, b)
    }

    pub(super) fn distance(&self, p: Lab, q: Lab) -> f32 {
        let weight = if self.has_slip(Slip::ChromaWeightTwo) { 2.0 } else { 2.15 };
        let [l, a, b] = [p[0] - q[0], p[1] - q[1], p[2] - q[2]];
        l * l + weight * (a * a + b * b)
    }

    pub(super) fn lerp(&self, c1: [u8; 3], c2: [u8; 3], color: [u8; 3], clamp: bool) -> f32 {
        let t = model::lerp(c1, c2, color, clamp);
        if self.has_slip(Slip::MinusZeroLost) { t + 0.0 } else { t }
    }

    pub(super) fn bracket_width_of(&self, shift: u32, max: u64) -> u64 {
        if self.has_slip(Slip::WidthHalvesDown) {
            return ((u128::from(max) * u128::from(shift) + 7) / 16).clamp(1, 16) as u64;
        }
        model::bracket_width(shift, max)
    }

    pub(super) fn find_nearest(&self, list: &[Entry], color: [u8; 3]) -> usize {
        let target = self.convert(color);
        let mut best = (0, f32::INFINITY);
        for (i, entry) in list.iter().enumerate() {
            let d = self.distance(target, entry.oklab);
            if d < best.1 || self.has_slip(Slip::LastOfEqualNearest) && d == best.1 {
                best = (i, d);
            }
        }
        best.0
    }

    fn shortlist(&self, list: &[Entry], a: usize, width: u64) -> Vec<usize> {
        let room = if self.has_slip(Slip::ShortlistNotClamped) { width.clamp(1, 32) } else { width.clamp(1, 16) };
        let mut kept: Vec<(usize, f32)> = Vec::new();
        for (i, entry) in list.iter().enumerate() {
            let twin = self.has_slip(Slip::TwinOfFirstDropped) && entry.reduced == list[a].reduced;
            if i == a || twin {
                continue;
            }
            let d = self.distance(list[a].oklab, entry.oklab);
            let before = |k: &(usize, f32)| k.1 < d || k.1 == d && !self.has_slip(Slip::LastOfEqualShortlist);
            let at = kept.partition_point(before);
            kept.insert(at, (i, d));
            kept.truncate(room as usize);
        }
        kept.into_iter().map(|(i, _)| i).collect()
    }

    pub(super) fn find_two(&self, list: &[Entry], color: [u8; 3], width: u64) -> (usize, Option<usize>) {
        let a = self.find_nearest(list, color);
        let shortlist = self.shortlist(list, a, width);
        let mut best: Option<(usize, f32)> = None;
        for &i in &shortlist {
            let [c1, c2] = [a, i].map(|k| model::rgb(list[k].normalized));
            let t = model::lerp(c1, c2, color, false);
            if !(t >= 0.0 && t <= 1.0) {
                continue;
            }
            let r = model::mix_residual(c1, c2, t, color);
            let later = self.has_slip(Slip::LastOfEqualResidual);
            if best.is_none_or(|(_, least)| r < least || later && r == least) {
                best = Some((i, r));
            }
        }
        (a, best.map(|b| b.0).or(shortlist.first().copied()))
    }

    pub(super) fn find_bracket(&self, list: &[Entry], color: [u8; 3], width: u64) -> Bracket {
        let (a, b) = self.find_two(list, color, width);
        let b = b.unwrap_or(a);
        // One entry alone has no way to itself: t is then 0.
        let t = self.lerp(model::rgb(list[a].normalized), model::rgb(list[b].normalized), color, true);
        let (dark, light, ratio) = if list[b].oklab[0] >= list[a].oklab[0] { (a, b, t) } else { (b, a, 1.0 - t) };
        Bracket {
            dark: list[dark].reduced,
            light: list[light].reduced,
            ratio,
            dark_position: dark,
            light_position: light,
        }
    }

    /// The positions that are said of a bracket, dark's first.
    pub(super) fn positions(&self, list: &[Entry], color: [u8; 3], width: u64, bracket: &Bracket) -> [u32; 2] {
        let [dark, light] = [bracket.dark_position, bracket.light_position];
        let equal = |i: usize| (0..list.len()).filter(move |&k| list[k].reduced == list[i].reduced);
        let said = match self.slip {
            Some(Slip::PositionOfFirstTwin) => [dark, light].map(|i| equal(i).next().unwrap()),
            Some(Slip::PositionOfLaterTwin) => [dark, light].map(|i| equal(i).next_back().unwrap()),
            Some(Slip::PositionInShortlist) => {
                let shortlist = self.shortlist(list, self.find_nearest(list, color), width);
                [dark, light].map(|i| shortlist.iter().position(|&k| k == i).unwrap_or(i))
            }
            Some(Slip::PositionsSwapped) => [light, dark],
            Some(Slip::PositionsByNearness) => {
                let (a, b) = self.find_two(list, color, width);
                [a, b.unwrap_or(a)]
            }
            _ => [dark, light],
        };
        said.map(|i| i as u32)
    }
}
