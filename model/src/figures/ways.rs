//! The ways on which the lead of a figure reaches the child, each with all that it needs.

use super::keys::{Key, Place};
use super::needs::Need;
use crate::foods::{food, local, LOCAL_FOODS};
use crate::site::away;
use crate::site::place::*;

use Need::{KeyOver0, Mode, NoFoods, Over0, Rest};
use Place::{AwayDust, AwayShare, Grams, Lead, LocalLead, Share, Site};

const ABSORBED_DIET: usize = ABSORBED;
const ABSORBED_WATER: usize = ABSORBED + 1;
const ABSORBED_DUST: usize = ABSORBED + 2;
const ABSORBED_SOIL: usize = ABSORBED + 3;
const ABSORBED_ALTERNATE: usize = ABSORBED + 4;
const PASSIVE_DIET: usize = PASSIVE;
const PASSIVE_WATER: usize = PASSIVE + 1;
const PASSIVE_DUST: usize = PASSIVE + 2;
const PASSIVE_SOIL: usize = PASSIVE + 3;
const PASSIVE_ALTERNATE: usize = PASSIVE + 4;

const GIVEN_DUST: Need = Mode(DUST_MODE, 0);
const MIXED_DUST: Need = Mode(DUST_MODE, 1);
const ONE_WATER: Need = Mode(WATER_MODE, 0);
const THREE_WATERS: Need = Mode(WATER_MODE, 1);
/// Less than the whole of what is eaten as soil, so that some is dust.
const DUST_SHARE: Need = Rest(&[Site(WEIGHT_SOIL)]);
/// Less than the whole of the dust from places away from home, so that some is the house's.
const HOUSE_SHARE: Need = Rest(&[
    AwayShare(away::WORK),
    AwayShare(away::SCHOOL),
    AwayShare(away::DAYCARE),
    AwayShare(away::SECOND_HOME),
    AwayShare(away::OTHER),
]);
/// Less than the whole of the water from first draw and fountain, so that some is flushed.
const FLUSHED_SHARE: Need = Rest(&[Site(FIRST_DRAW_SHARE), Site(FOUNTAIN_SHARE)]);

/// A way on which the lead of a figure reaches the child: all that it needs.
type Way = &'static [Need];

const BY_AIR: Way = &[Over0(BREATHING), Over0(AIR_ABSORBED)];
const BY_SOIL: Way = &[Over0(EATEN), Over0(WEIGHT_SOIL), Over0(ABSORBED_SOIL)];
const BY_DUST: Way = &[Over0(EATEN), DUST_SHARE, Over0(ABSORBED_DUST)];
const BY_GIVEN_DUST: Way = &[GIVEN_DUST, HOUSE_SHARE, Over0(EATEN), DUST_SHARE, Over0(ABSORBED_DUST)];
const BY_MIXED_DUST: Way = &[MIXED_DUST, HOUSE_SHARE, Over0(EATEN), DUST_SHARE, Over0(ABSORBED_DUST)];
const AIR_BY_DUST: Way =
    &[MIXED_DUST, Over0(AIR_TO_DUST), HOUSE_SHARE, Over0(EATEN), DUST_SHARE, Over0(ABSORBED_DUST)];
const SOIL_BY_DUST: Way =
    &[MIXED_DUST, Over0(CONTRIBUTION), HOUSE_SHARE, Over0(EATEN), DUST_SHARE, Over0(ABSORBED_DUST)];
const BY_WATER: Way = &[Over0(WATER_AMOUNT), Over0(ABSORBED_WATER)];
const BY_ONE_WATER: Way = &[ONE_WATER, Over0(WATER_AMOUNT), Over0(ABSORBED_WATER)];
const BY_THREE_WATERS: Way = &[THREE_WATERS, Over0(WATER_AMOUNT), Over0(ABSORBED_WATER)];

/// The ways of a site figure's lead, by its first field.
fn site_ways(from: usize) -> &'static [Way] {
    match from {
        AIR => &[BY_AIR, AIR_BY_DUST],
        HOURS_OUT | INDOOR => &[BY_AIR],
        BREATHING => &[&[Over0(AIR_ABSORBED)]],
        AIR_ABSORBED => &[&[Over0(BREATHING)]],
        DIET => &[&[NoFoods, Over0(ABSORBED_DIET)]],
        PASSIVE_DIET => &[&[Over0(ABSORBED_DIET)]],
        WATER_AMOUNT => &[&[Over0(ABSORBED_WATER)]],
        SOIL => &[BY_SOIL, SOIL_BY_DUST],
        DUST => &[BY_GIVEN_DUST],
        EATEN => &[&[Over0(WEIGHT_SOIL), Over0(ABSORBED_SOIL)], &[DUST_SHARE, Over0(ABSORBED_DUST)]],
        WEIGHT_SOIL => &[&[Over0(EATEN), Over0(ABSORBED_SOIL)], &[Over0(EATEN), Over0(ABSORBED_DUST)]],
        CONTRIBUTION | AIR_TO_DUST => &[BY_MIXED_DUST],
        CONSTANT_WATER => &[BY_ONE_WATER],
        FLUSHED => &[&[THREE_WATERS, FLUSHED_SHARE, Over0(WATER_AMOUNT), Over0(ABSORBED_WATER)]],
        FIRST_DRAW => &[&[THREE_WATERS, Over0(FIRST_DRAW_SHARE), Over0(WATER_AMOUNT), Over0(ABSORBED_WATER)]],
        FOUNTAIN => &[&[THREE_WATERS, Over0(FOUNTAIN_SHARE), Over0(WATER_AMOUNT), Over0(ABSORBED_WATER)]],
        FIRST_DRAW_SHARE | FOUNTAIN_SHARE => &[BY_THREE_WATERS],
        ABSORBED_WATER => &[&[Over0(WATER_AMOUNT)]],
        ABSORBED_DUST => &[&[Over0(EATEN), DUST_SHARE]],
        ABSORBED_SOIL => &[&[Over0(EATEN), Over0(WEIGHT_SOIL)]],
        ALTERNATE => &[&[Over0(ABSORBED_ALTERNATE)]],
        ABSORBED_ALTERNATE => &[&[Over0(ALTERNATE)]],
        PASSIVE_WATER => &[BY_WATER],
        PASSIVE_DUST => &[BY_DUST],
        PASSIVE_SOIL => &[BY_SOIL],
        PASSIVE_ALTERNATE => &[&[Over0(ALTERNATE), Over0(ABSORBED_ALTERNATE)]],
        // Diet's absorption, saturation, the mother's blood and the modes themselves.
        _ => &[&[]],
    }
}

/// Less than the whole of a food's amount from local foods, so that some is from the shop.
fn from_shop(food: usize) -> Need {
    match food {
        food::MEAT => Rest(&[Share(local::FISH), Share(local::GAME)]),
        food::CANNED_VEGETABLE | food::FRESH_VEGETABLE => Rest(&[Share(local::VEGETABLE)]),
        food::CANNED_FRUIT | food::FRESH_FRUIT => Rest(&[Share(local::FRUIT)]),
        _ => Rest(&[]),
    }
}

/// The foods whose amounts a local food is a part of.
fn wholes(local: usize) -> &'static [usize] {
    match local {
        local::VEGETABLE => &[food::FRESH_VEGETABLE, food::CANNED_VEGETABLE],
        local::FRUIT => &[food::FRESH_FRUIT, food::CANNED_FRUIT],
        _ => &[food::MEAT],
    }
}

/// The ways of a key's lead; it counts if one is open. The first is the one to tell of.
pub(super) fn ways(key: &Key) -> Vec<Vec<Need>> {
    // A way for each food that a local food is a part of: what is needed of the food.
    let by_whole = |local: usize, due: &dyn Fn(usize) -> [Need; 2]| -> Vec<Vec<Need>> {
        wholes(local).iter().map(|&food| due(food).to_vec()).collect()
    };
    let mut ways = match key.place {
        Site(from) => return site_ways(from).iter().map(|way| way.to_vec()).collect(),
        AwayShare(_) => return vec![BY_DUST.to_vec()],
        AwayDust(at) => return vec![[&[KeyOver0(AwayShare(at))], BY_DUST].concat()],
        Grams(food) => {
            let locals = (0..LOCAL_FOODS).filter(|&local| wholes(local).contains(&food));
            let local_ways = locals.map(|local| vec![KeyOver0(Share(local)), KeyOver0(LocalLead(local))]);
            [vec![KeyOver0(Lead(food)), from_shop(food)]].into_iter().chain(local_ways).collect()
        }
        Lead(food) => vec![vec![KeyOver0(Grams(food)), from_shop(food)]],
        Share(local) => {
            let own = by_whole(local, &|food| [KeyOver0(LocalLead(local)), KeyOver0(Grams(food))]);
            let spared = by_whole(local, &|food| [KeyOver0(Lead(food)), KeyOver0(Grams(food))]);
            [own, spared].concat()
        }
        LocalLead(local) => by_whole(local, &|food| [KeyOver0(Share(local)), KeyOver0(Grams(food))]),
    };
    // All food is absorbed as the diet is.
    ways.iter_mut().for_each(|way| way.push(Over0(ABSORBED_DIET)));
    ways
}
