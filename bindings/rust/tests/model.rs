//! Long runs of operations drawn at random, each beside the plain thing that the type stands for: a
//! map of layers, a list of pictures with gaps, two pictures that differ in one source.
mod common;

use common::{Draw, Picture};
use std::collections::BTreeMap;
use tiglostrema::{
    play, stain, Canvas, Cause, Layer, Refusal, Rundown, Scratch, Source, Sources, MAX_LAYERS,
    MAX_SOURCES,
};

/// The priorities in the order of the blocks.
fn priorities(rundown: &Rundown) -> Vec<u16> {
    rundown.iter().map(|(priority, _)| priority).collect()
}

/// What the ranges say of such a layer.
fn range(layer: &Layer) -> Option<Cause> {
    let float = match layer {
        Layer::Fill(fill) => fill.radius < 0.0,
        Layer::Glass(glass) => !(0.0..=64.0).contains(&glass.blur),
        _ => false,
    };
    let bent = match layer {
        Layer::Glass(glass) if glass.bezel > 0.5 => {
            glass.displacement.iter().any(|d| *d > glass.bezel * 1.6)
        }
        _ => false,
    };
    let wrong = [
        (float, Cause::FloatRange),
        (layer.clip().y1 > 16384, Cause::IntegerRange),
        (bent, Cause::Bend),
    ];
    let wrong = wrong.into_iter().find(|(wrong, _)| *wrong);
    wrong.map(|(_, cause)| cause)
}

/// Does one operation to a rundown and to the map. Refused, it leaves the bytes.
fn change(draw: &mut Draw, rundown: &mut Rundown, map: &mut BTreeMap<u16, Layer>) {
    let (priority, layer) = (draw.priority(), draw.layer());
    let before = rundown.clone();
    let (absent, full) = (!map.contains_key(&priority), map.len() == MAX_LAYERS);
    let wrong = |others: &[(bool, Cause)]| {
        let first = others.iter().find(|(wrong, _)| *wrong);
        first.map(|(_, cause)| *cause)
    };
    let none = wrong(&[(absent, Cause::NoSuchPriority)]);
    let other = none.or(range(&layer));
    let (answer, expected, then) = match draw.below(8) {
        0 => (rundown.remove(priority).map(drop), none, None),
        1 => (rundown.replace(priority, layer), other, Some(layer)),
        2 => {
            let updated = rundown.update(priority, |was| *was = layer);
            (updated, other, Some(layer))
        }
        _ => {
            let no_room = wrong(&[
                (!absent, Cause::DuplicatePriority),
                (full, Cause::RundownFull),
            ]);
            let added = rundown.add(priority, layer).map(drop);
            (added, range(&layer).or(no_room), Some(layer))
        }
    };
    assert_eq!(answer.err().map(|refusal| refusal.cause()), expected);
    match (answer, then) {
        (Ok(()), Some(layer)) => drop(map.insert(priority, layer)),
        (Ok(()), None) => drop(map.remove(&priority)),
        (Err(refusal), _) => {
            assert_eq!(refusal.priority(), Some(priority));
            assert_eq!(*rundown, before);
        }
    }
    assert_eq!(rundown.get(priority), map.get(&priority).copied());
}

#[test]
fn a_rundown_is_a_map_of_layers() {
    let (mut rundown, mut map) = (Rundown::new(), BTreeMap::new());
    let mut draw = Draw(0x5EED);
    for round in 0..6000 {
        if round % 7 == 0 {
            rundown = draw.shuffled(&rundown);
        }
        let before = priorities(&rundown);
        change(&mut draw, &mut rundown, &mut map);
        assert_eq!(rundown.len(), map.len());
        // An add or a remove was carried out, or nothing was moved.
        match rundown.len() == before.len() {
            true => assert_eq!(priorities(&rundown), before),
            false => assert!(map.keys().eq(&priorities(&rundown))),
        }
        if round % 50 == 0 {
            assert!(rundown.in_playing_order().eq(map.clone()));
            assert_eq!(Rundown::from_bytes(rundown.as_bytes()), Ok(rundown.clone()));
        }
    }
}

/// Does one operation to the sources and to the list, and answers what it should have been refused by.
fn alter(
    draw: &mut Draw,
    sources: &mut Sources,
    list: &mut Vec<Option<Picture>>,
) -> (Result<(), Refusal>, Option<Cause>) {
    let (number, picture) = (draw.below(18) as usize, draw.picture());
    let (width, height, pixels) = &picture;
    let source = Source::new(*width, *height, pixels).expect("a source");
    let id = number as u32;
    let there = matches!(list.get(number), Some(Some(_)));
    let none = (!there).then_some(Cause::NoSuchSource);
    match draw.below(5) {
        0 => {
            let answer = sources.remove(id);
            list.get_mut(number).map(Option::take);
            (answer, none)
        }
        1 => {
            let black = (*width, *height, vec![0; pixels.len()]);
            if let Some(Some(was)) = list.get_mut(number) {
                *was = black;
            }
            (sources.resize(id, *width, *height), none)
        }
        2 => {
            let none = (number >= list.len()).then_some(Cause::NoSuchSource);
            let answer = sources.replace(id, source);
            if let Some(was) = list.get_mut(number) {
                *was = Some(picture);
            }
            (answer, none)
        }
        _ if list.len() == MAX_SOURCES => {
            (sources.push(source).map(drop), Some(Cause::SourceTable))
        }
        _ => {
            let answer = sources.push(source).map(drop);
            list.push(Some(picture));
            (answer, None)
        }
    }
}

#[test]
fn sources_are_a_list_with_gaps() {
    let (mut sources, mut list) = (Sources::new(), Vec::new());
    let mut draw = Draw(0xF00D);
    for round in 0..20_000 {
        if round % 100 == 0 {
            (sources, list) = (Sources::new(), Vec::new());
        }
        let (answer, expected) = alter(&mut draw, &mut sources, &mut list);
        assert_eq!(answer.err().map(|refusal| refusal.cause()), expected);
        let listed = list.iter().flatten();
        let held = sources.iter().map(|(_, source)| source);
        assert!(held
            .map(|source| (source.width(), source.height(), source.pixels().to_vec()))
            .eq(listed.cloned()));
        let gaps = list.iter().map(Option::is_none);
        assert!(gaps.eq(sources.table().sizes().map(|size| size.is_none())));
    }
}

/// Plays a show of a few layers drawn at random twice, with other pixels in one source, and answers
/// how many pixels differ.
fn differing(draw: &mut Draw) -> usize {
    let (mut sources, mut rundown) = (Sources::new(), Rundown::new());
    for priority in 0..4 {
        let (width, height, pixels) = draw.picture();
        let source = Source::new(width, height, &pixels).expect("a source");
        sources.push(source).expect("room");
        for more in [0, 4] {
            // Some are out of range, and not added.
            let _ = rundown.add(priority + more, draw.layer());
        }
    }
    let hidden = draw.below(4) as u32;
    let stain = stain(&rundown, 40, 40, sources.table(), hidden).expect("accepted");
    let mut pictures = [(); 2].map(|()| Canvas::new(40, 40).expect("a canvas"));
    for canvas in &mut pictures {
        let pixels = sources.pixels_mut(hidden).expect("there");
        pixels.fill_with(|| draw.next() as u32);
        play(&rundown, canvas, &sources, &mut Scratch::new()).expect("accepted");
    }
    let [a, b] = &pictures;
    let pairs = a.pixels().iter().zip(b.pixels()).zip(stain.as_bytes());
    let differing = pairs.filter(|((a, b), _)| a != b);
    let stained: Vec<u8> = differing.map(|(_, stained)| *stained).collect();
    assert!(!stained.contains(&0), "{rundown:?} shows source {hidden}");
    stained.len()
}

#[test]
fn outside_the_stain_two_pictures_agree() {
    let mut draw = Draw(0xCAFE);
    let differing: usize = (0..1000).map(|_| differing(&mut draw)).sum();
    assert!(
        differing > 10_000,
        "{differing} pixels differ: too few to tell"
    );
}
