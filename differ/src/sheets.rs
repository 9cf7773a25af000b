// Readers, writers and labels: library and twin on the same sheets, netlists and cuts.

use crate::chance::Chance;
use crate::drawings::Pair;
use crate::expected::{cut_of, library_cut_of, library_queues_of, net_of, netlist_of};
use crate::tally::Tally;
use crate::{hold, same, Same};
use twin::{Cut, Net, Queues, Refusal, Sheet};

/// What the twin read of two sheets.
pub struct Read {
    pub net: Result<Box<Net>, Refusal>,
    pub cut: Result<(Box<Cut>, Box<Queues>), Refusal>,
}

fn outcome<T>(read: &Result<T, Refusal>) -> (u32, usize) {
    match read {
        Ok(_) => (0, 0),
        Err(refusal) => (refusal.answer, refusal.place),
    }
}

/// The first field in which two netlists differ.
fn netlist_differs(x: &boards::Netlist, y: &boards::Netlist) -> Option<&'static str> {
    [
        ("nodes", x.nodes == y.nodes),
        ("code", x.code == y.code),
        ("width", x.width == y.width),
        ("a", x.a == y.a),
        ("b", x.b == y.b),
        ("c", x.c == y.c),
        ("k", x.k == y.k),
        ("outputs", x.outputs == y.outputs),
        ("output", x.output == y.output),
        ("labels", x.labels == y.labels),
        ("label", x.label == y.label),
    ]
    .into_iter()
    .find(|(_, same)| !same)
    .map(|(name, _)| name)
}

fn cut_differs(x: &boards::Cut, y: &boards::Cut) -> Option<&'static str> {
    [
        ("nodes", x.nodes == y.nodes),
        ("part", x.part == y.part),
        ("queues", x.queues == y.queues),
        ("depth", x.depth == y.depth),
        ("labels", x.labels == y.labels),
        ("label", x.label == y.label),
    ]
    .into_iter()
    .find(|(_, same)| !same)
    .map(|(name, _)| name)
}

fn queues_differ(x: &boards::Queues, y: &boards::Queues) -> Option<&'static str> {
    [
        ("parts", x.parts == y.parts),
        ("count", x.count == y.count),
        ("inputs", x.inputs == y.inputs),
        ("channels", x.channels == y.channels),
        ("outputs", x.outputs == y.outputs),
        ("node", x.node == y.node),
        ("from", x.from == y.from),
        ("into", x.into == y.into),
        ("input", x.input == y.input),
        ("a", x.a == y.a),
        ("b", x.b == y.b),
        ("c", x.c == y.c),
    ]
    .into_iter()
    .find(|(_, same)| !same)
    .map(|(name, _)| name)
}

/// Both readers on both sheets; what they give is written again.
pub fn read(chance: &mut Chance, tally: &mut Tally, net_sheet: &[u8], cut_sheet: &[u8]) -> Result<Read, String> {
    let library = boards::read_net(net_sheet);
    let net = twin::read_net(net_sheet);
    same!("read_net's answer and place", (library.answer, library.place), outcome(&net));
    tally.met("read_net", library.answer);
    let known = net.as_deref().unwrap_or(&Net::ZERO);
    if let Some(field) = netlist_differs(&library.net, &netlist_of(known)) {
        return Err(format!("read_net's netlist: {field}"));
    }
    if net.is_ok() && known.labels == 4096 {
        tally.see("4,096 label bytes read");
    }
    write_net(chance, tally, &library.net, net.is_ok().then_some(net_sheet))?;

    let library_cut = boards::read_cut(&library.net, cut_sheet);
    let cut = twin::read_cut(known, cut_sheet);
    same!("read_cut's answer and place", (library_cut.answer, library_cut.place), outcome(&cut));
    tally.met("read_cut", library_cut.answer);
    let (expected_cut, expected_queues) = match &cut {
        Ok((cut, queues)) => (library_cut_of(cut), library_queues_of(known, cut, queues)),
        Err(_) => (boards::Cut::zeros(), boards::Queues::zeros()),
    };
    if let Some(field) = cut_differs(&library_cut.cut, &expected_cut) {
        return Err(format!("read_cut's cut: {field}"));
    }
    if let Some(field) = queues_differ(&library_cut.queues, &expected_queues) {
        return Err(format!("read_cut's queues: {field}"));
    }
    write_cut(chance, tally, &library.net, known, &library_cut.cut, cut.is_ok().then_some(cut_sheet))?;
    Ok(Read { net, cut })
}

/// A lent image of some length, near the one that is needed, too short or long.
fn image(chance: &mut Chance, needed: usize) -> Vec<u8> {
    let length = match chance.below(6) {
        0 => needed,
        1 => needed.saturating_sub(1),
        2 => chance.below(needed.max(1)),
        3 => needed + 1,
        _ => needed + chance.below(60),
    };
    (0..length).map(|_| chance.byte()).collect()
}

/// The writer on any netlist; where the sheet that it was read from is given, the image has to be that sheet.
pub fn write_net(chance: &mut Chance, tally: &mut Tally, netlist: &boards::Netlist, from: Option<&[u8]>) -> Same {
    let needed = from.map_or(16 + 12 * netlist.nodes.min(1100), <[u8]>::len);
    let lent = image(chance, needed);
    let (mut library, mut twins) = (lent.clone(), lent.clone());
    let wrote = boards::write_net(netlist, &mut library);
    let written = twin::write_net(&net_of(netlist), &mut twins);
    same!("write_net's answer, place and length", (wrote.answer, wrote.place, wrote.length), (written.answer, written.place, written.len));
    tally.met("write_net", wrote.answer);
    hold!(library == twins, "write_net's image or what is past it");
    wrote_well(tally, wrote.answer, wrote.length, &library, &lent, from)
}

/// The same of cuts; the netlist was read, or is zeros.
pub fn write_cut(
    chance: &mut Chance,
    tally: &mut Tally,
    netlist: &boards::Netlist,
    net: &Net,
    cut: &boards::Cut,
    from: Option<&[u8]>,
) -> Same {
    let needed = from.map_or(16 + cut.nodes.min(1100) + cut.queues.min(600) + cut.labels.min(5000), <[u8]>::len);
    let lent = image(chance, needed);
    let (mut library, mut twins) = (lent.clone(), lent.clone());
    let wrote = boards::write_cut(netlist, cut, &mut library);
    let written = twin::write_cut(net, &cut_of(cut), &mut twins);
    same!("write_cut's answer, place and length", (wrote.answer, wrote.place, wrote.length), (written.answer, written.place, written.len));
    tally.met("write_cut", wrote.answer);
    hold!(library == twins, "write_cut's image or what is past it");
    wrote_well(tally, wrote.answer, wrote.length, &library, &lent, from)
}

fn wrote_well(tally: &mut Tally, answer: u32, length: usize, image: &[u8], lent: &[u8], from: Option<&[u8]>) -> Same {
    if answer != 0 {
        hold!(image == lent, "a refused writer changed the image");
        return Ok(());
    }
    hold!(image[length..] == lent[length..], "a writer changed bytes past the image");
    if image.len() > length {
        tally.see("image with bytes past it");
    }
    if let Some(sheet) = from {
        hold!(image[..length] == *sheet, "the image is not the sheet that was read");
    }
    Ok(())
}

/// The writers on a drawing and a cut that no reader gave: whatever a hand could make.
pub fn write_by_hand(chance: &mut Chance, tally: &mut Tally, good: &Pair, bent: &Pair) -> Same {
    let mut netlist = boards::Netlist::zeros();
    if chance.one_in(2) {
        // What stands past the counts is neither refused nor written.
        netlist.code.fill_with(|| chance.byte());
        netlist.k.fill_with(|| chance.u32());
        netlist.output.fill_with(|| chance.u32() as u16);
        netlist.label.fill_with(|| chance.byte());
    }
    netlist.nodes = bent.net.nodes.len();
    for (i, x) in bent.net.nodes.iter().take(1024).enumerate() {
        (netlist.code[i], netlist.width[i], netlist.a[i], netlist.b[i], netlist.c[i], netlist.k[i]) = (x.code, x.w, x.a, x.b, x.c, x.k);
    }
    netlist.outputs = bent.net.outputs.len();
    netlist.output.iter_mut().zip(&bent.net.outputs).for_each(|(x, y)| *x = *y);
    netlist.labels = bent.net.labels.len();
    netlist.label.iter_mut().zip(&bent.net.labels).for_each(|(x, y)| *x = *y);
    match chance.below(12) {
        0 => netlist.nodes = chance.of(&[0, 1025, usize::MAX, 1 << 32, usize::MAX / 12 + 2]),
        1 => netlist.outputs = chance.of(&[65, usize::MAX, 1 << 32, 1 << 63]),
        2 => netlist.labels = chance.of(&[4097, usize::MAX, 1 << 32]),
        _ => {}
    }
    write_net(chance, tally, &netlist, None)?;

    let sheet = good.net.sheet();
    let Ok(net) = twin::read_net(&sheet) else { return Ok(()) };
    let mut cut = boards::Cut::zeros();
    if chance.one_in(2) {
        cut.part.fill_with(|| chance.byte());
        cut.depth.fill_with(|| chance.byte());
        cut.label.fill_with(|| chance.byte());
    }
    (cut.nodes, cut.queues, cut.labels) = (bent.cut.parts.len(), bent.cut.depths.len(), bent.cut.labels.len());
    cut.part.iter_mut().zip(&bent.cut.parts).for_each(|(x, y)| *x = *y);
    cut.depth.iter_mut().zip(&bent.cut.depths).for_each(|(x, y)| *x = *y);
    cut.label.iter_mut().zip(&bent.cut.labels).for_each(|(x, y)| *x = *y);
    match chance.below(12) {
        0 => cut.nodes = chance.of(&[0, 1025, usize::MAX, net.nodes + 1]),
        1 => cut.queues = chance.of(&[0, 513, usize::MAX, 1 << 32]),
        2 => cut.labels = chance.of(&[4097, usize::MAX, 1 << 32]),
        _ => {}
    }
    write_cut(chance, tally, &netlist_of(&net), &net, &cut, None)
}

/// The label of a node: the spot, and the part of the sheet.
pub fn label(tally: &mut Tally, net: &[u8], cut: &[u8], node: usize) -> Same {
    let spot = boards::label_spot(net, cut, node);
    let found = twin::label_place(net, cut, node);
    let in_cut = found.sheet == Sheet::Cut;
    same!(format!("label of node {node}: sheet, from, length"), (spot.cut, spot.from, spot.length), (in_cut, found.start, found.len));
    // A label has at least one byte.
    same!(format!("label of node {node}: found"), spot.found, found.len > 0);
    let (text, expected) = (boards::label(net, cut, node), twin::label(net, cut, node));
    hold!(text.as_ptr() == expected.as_ptr() && text.len() == expected.len(), "label of node {node}: the part of the sheet");
    tally.met("label", 0);
    tally.see(match (spot.found, spot.cut) {
        (false, _) => "label in neither",
        (true, true) => "label in the cut sheet",
        (true, false) => "label in the net sheet",
    });
    Ok(())
}

/// Labels of some nodes, or of all, and of numbers that are no node's.
pub fn labels(chance: &mut Chance, tally: &mut Tally, net: &[u8], cut: &[u8], nodes: usize) -> Same {
    let all = nodes <= 40 || chance.one_in(200);
    for turn in 0..if all { nodes } else { 6 } {
        label(tally, net, cut, if all { turn } else { chance.below(nodes) })?;
    }
    for node in [nodes, 65_536, usize::MAX, 1 << 32] {
        label(tally, net, cut, node)?;
    }
    Ok(())
}
