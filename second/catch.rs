// Catching, fast enough for cards of full size: three-valued answers from tables that are filled by trying every choice
// of bits, and a faulty walk that begins where the fault sits. Thinning a setting to a vector stands here too.
use crate::card::Netlist;
use crate::faults::sites;
use crate::walk::{three_valued, Site};

const SIGNS: &[u8; 3] = b"01X";

pub struct Lines {
    pub card: Netlist,
    sites: Vec<Site>,
    answers: Vec<[u8; 9]>, // by function: the answer to pins a and b stands at 3 a + b
}

fn code(sign: u8) -> u8 {
    SIGNS.iter().position(|&s| s == sign).unwrap() as u8
}

// What the function answers to every two pin values; a pin that it does not have is passed over.
fn answers(function: u8) -> [u8; 9] {
    let pins = [1, 2, 2, 2, 1, 2, 2, 2, 0, 0][function as usize];
    std::array::from_fn(|i| code(three_valued(function, &[SIGNS[i / 3], SIGNS[i % 3]][..pins])))
}

impl Lines {
    pub fn new(card: Netlist) -> Self {
        let sites = sites(&card);
        Lines { card, sites, answers: (0..10).map(answers).collect() }
    }

    pub fn faults(&self) -> usize {
        2 * self.sites.len()
    }

    // Fills in the nets from `first` on; `stuck` is the line that sticks, with its level.
    fn walk_from(&self, first: usize, nets: &mut Vec<u8>, stuck: Option<(Site, u8)>) {
        let inputs = self.card.inputs;
        nets.truncate(first.max(inputs));
        for j in nets.len()..inputs + self.card.gates.len() {
            let gate = &self.card.gates[j - inputs];
            let mut pins = [0; 2];
            for (p, &net) in gate.reads.iter().enumerate() {
                pins[p] = nets[net];
            }
            match stuck {
                Some((Site::Pin(at, p), level)) if at == j => pins[p] = level,
                _ => {}
            }
            let made = self.answers[gate.function as usize][3 * pins[0] as usize + pins[1] as usize];
            nets.push(if stuck.is_some_and(|(site, _)| site == Site::Net(j)) { stuck.unwrap().1 } else { made });
        }
    }

    pub fn good(&self, row: &[u8]) -> Vec<u8> {
        let mut nets: Vec<u8> = row.iter().map(|&sign| code(sign)).collect();
        self.walk_from(0, &mut nets, None);
        nets
    }

    // Whether the row whose good walk this is catches the fault.
    pub fn catches(&self, good: &[u8], fault: usize) -> bool {
        let stuck = (self.sites[fault / 2], (fault % 2) as u8);
        let mut nets = good.to_vec();
        let first = match stuck.0 {
            Site::Net(j) if j < self.card.inputs => {
                nets[j] = stuck.1;
                0
            }
            Site::Net(j) | Site::Pin(j, _) => j,
        };
        self.walk_from(first, &mut nets, Some(stuck));
        self.card.outputs.iter().any(|&net| good[net] + nets[net] == 1)
    }

    // The outputs that the good card shows, in the characters 0, 1 and X.
    pub fn shown(&self, row: &[u8]) -> String {
        let good = self.good(row);
        self.card.outputs.iter().map(|&net| SIGNS[good[net] as usize] as char).collect()
    }

    // The row of a setting that shows the fault, with every cell freed, in rising order, that may be.
    pub fn thinned(&self, setting: &[bool], fault: usize) -> Vec<u8> {
        let mut row: Vec<u8> = setting.iter().map(|&bit| b'0' + bit as u8).collect();
        for j in 0..row.len() {
            let fixed = std::mem::replace(&mut row[j], b'X');
            if !self.catches(&self.good(&row), fault) {
                row[j] = fixed;
            }
        }
        row
    }
}
