// Sites, faults and catching, by the rules; every catch is checked by brute force over the fillings.
use crate::card::Netlist;
use crate::walk::{outputs, walk, Site};

pub fn sites(card: &Netlist) -> Vec<Site> {
    let mut readers = vec![0; card.inputs + card.gates.len()];
    for &net in card.gates.iter().flat_map(|gate| &gate.reads) {
        readers[net] += 1;
    }
    let mut sites: Vec<Site> = (0..readers.len()).map(Site::Net).collect();
    for (i, gate) in card.gates.iter().enumerate() {
        for (p, &net) in gate.reads.iter().enumerate() {
            if readers[net] >= 2 {
                sites.push(Site::Pin(card.inputs + i, p));
            }
        }
    }
    sites
}

// The outputs at which good and faulty card show opposite definite bits.
fn apart(card: &Netlist, row: &[u8], stuck: (Site, u8)) -> Vec<usize> {
    let good = outputs(card, &walk(card, row, None));
    let faulty = outputs(card, &walk(card, row, Some(stuck)));
    (0..good.len()).filter(|&i| matches!((good[i], faulty[i]), (b'0', b'1') | (b'1', b'0'))).collect()
}

// Every filling of the row, as rows without X.
fn fillings(row: &[u8]) -> Vec<Vec<u8>> {
    match row.iter().position(|&cell| cell == b'X') {
        None => vec![row.to_vec()],
        Some(at) => b"01"
            .iter()
            .flat_map(|&bit| {
                let mut fixed = row.to_vec();
                fixed[at] = bit;
                fillings(&fixed)
            })
            .collect(),
    }
}

// The numbers of the faults that the row catches.
pub fn caught(card: &Netlist, row: &[u8]) -> Vec<usize> {
    let mut numbers = vec![];
    for (site, &line) in sites(card).iter().enumerate() {
        for s in 0..2 {
            let stuck = (line, b'0' + s);
            let places = apart(card, row, stuck);
            let free = row.iter().filter(|&&cell| cell == b'X').count();
            if !places.is_empty() && free <= 6 {
                for filled in fillings(row) {
                    let shows = apart(card, &filled, stuck);
                    assert!(places.iter().all(|i| shows.contains(i)), "a filling of a caught fault does not show it");
                }
            }
            if !places.is_empty() {
                numbers.push(2 * site + s as usize);
            }
        }
    }
    numbers
}
