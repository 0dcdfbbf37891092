//! A day's rest-hour records in a stripe: stored, lost in part, corrected and read meanwhile,
//! rebuilt; and a loss that is too much. The same day as c/day.c, and the same output.

use std::error::Error;

use hrnkovida::{Layout, Limits, Price, Refusal, Standing};

/// The note of document 01's depot pair: two depots of two data blocks, with one redundant block
/// each, and one more over both.
const NOTE: [u8; 17] = [
    0x0F, 0x00, 0x02, 0x00, 0x01, // a branch: length 15, kind 2, h 1
    0x04, 0x00, 0x01, 0x00, 0x01, 0x02, // a leaf: length 4, kind 1, h 1, d 2
    0x04, 0x00, 0x01, 0x00, 0x01, 0x02, // another
];

/// Bytes of a block: one record.
const L: usize = 32;

const RECORDS: [&[u8; L]; 4] = [
    b"crew 07, ferry, rest 22:10-06:40",
    b"crew 12, ferry, rest 21:30-05:50",
    b"crew 31, train, rest 20:45-05:15",
    b"crew 44, train, rest 23:00-07:30",
];

/// In every record the time at which the rest began stands here.
const BEGAN: usize = 21;

struct Day {
    layout: Layout,
    standing: Standing,
    stripe: Vec<u8>,
    spare: Vec<u8>,
}

type Done = Result<(), Box<dyn Error>>;

fn text(bytes: &[u8]) -> String {
    String::from_utf8_lossy(bytes).into_owned()
}

impl Day {
    /// A stripe of these records, encoded.
    fn encoded(layout: Layout, records: [&[u8; L]; 4]) -> Result<Day, Refusal> {
        let mut stripe = records.map(|record| *record).concat();
        stripe.resize(layout.stripe_len(L), 0);
        let mut standing = Standing::new(L);
        layout.encode(&mut standing, &mut stripe)?;
        let spare = vec![0; L];
        Ok(Day {
            layout,
            standing,
            stripe,
            spare,
        })
    }

    /// The block's bytes go with it: whatever stands there is of no account.
    fn lose(&mut self, block: usize) -> Done {
        self.layout.lose(&mut self.standing, block)?;
        self.stripe[block * L..][..L].fill(b'?');
        println!("block {block} is lost");
        Ok(())
    }

    fn show_plan(&self, block: usize) -> Done {
        let plan = self.layout.plan(&self.standing, block)?;
        let terms: Vec<String> = plan
            .iter()
            .map(|(read, coefficient)| format!("{coefficient} x block {read}"))
            .collect();
        println!("plan of block {block}: {}", terms.join(" + "));
        Ok(())
    }

    /// A correction is a difference: the old bytes XOR the new.
    fn correct_time(&mut self, block: usize, began: &[u8; 5]) -> Done {
        let old = self.stripe[block * L + BEGAN..][..5].to_vec();
        let difference: Vec<u8> = old.iter().zip(began).map(|(was, is)| was ^ is).collect();
        self.layout
            .correct(&self.standing, &mut self.stripe, block, BEGAN, &difference)?;
        let new = &self.stripe[block * L + BEGAN..][..5];
        println!(
            "block {block} is corrected: {} is now {}",
            text(&old),
            text(new)
        );
        Ok(())
    }

    /// Present or lost, a block is read in the same two calls; a lost one stays lost.
    fn read(&mut self, block: usize) -> Done {
        self.layout
            .fetch(&self.standing, &self.stripe, &mut self.spare, block)?;
        let bytes = self
            .layout
            .view(&self.standing, &self.stripe, &self.spare, block);
        let from = if self.standing.is_lost(block) {
            "spare"
        } else {
            "stripe"
        };
        println!(
            "block {block}, from the {from}: {}",
            text(bytes.ok_or("nothing to view")?)
        );
        Ok(())
    }

    fn rebuild(&mut self, records: [&[u8; L]; 4]) -> Done {
        self.layout.rebuild(&mut self.standing, &mut self.stripe)?;
        let fresh = Day::encoded(self.layout.clone(), records)?;
        assert_eq!(self.standing.lost().len(), 0);
        assert_eq!(self.stripe, fresh.stripe);
        println!(
            "rebuilt: nothing is lost, and the stripe is a fresh encoding of the corrected records"
        );
        Ok(())
    }

    /// Four blocks survive for four data blocks, and still give nothing: none of the three has a
    /// plan.
    fn lose_too_much(&mut self) -> Done {
        for block in [0, 1, 5] {
            self.lose(block)?;
        }
        let (marks, stripe, spare) = (
            self.standing.marks(),
            self.stripe.clone(),
            self.spare.clone(),
        );
        let refused = self
            .layout
            .rebuild(&mut self.standing, &mut self.stripe)
            .unwrap_err();
        let fetch = self
            .layout
            .fetch(&self.standing, &self.stripe, &mut self.spare, 1)
            .unwrap_err();
        assert_eq!(
            self.layout
                .view(&self.standing, &self.stripe, &self.spare, 1),
            None
        );
        assert_eq!(
            (marks, &stripe, &spare),
            (self.standing.marks(), &self.stripe, &self.spare)
        );
        println!(
            "rebuild: refused {}, block {}; block 1: refused {}; nothing is changed",
            refused.refusal().number(),
            refused.block().ok_or("no block is named")?,
            fetch.number(),
        );
        Ok(())
    }
}

/// The tree: a group's nested groups follow it.
fn show_groups(layout: &Layout) {
    for (g, group) in layout.groups().enumerate() {
        let kind = if group.is_leaf() { "leaf" } else { "branch" };
        let (data, redundant) = (group.data(), group.redundant());
        println!(
            "group {g}, {kind}: {} data blocks from {}, {} redundant from {}, {} nested",
            data.len(),
            data.start,
            redundant.len(),
            redundant.start,
            group.nested(),
        );
    }
}

fn main() -> Done {
    let layout = Layout::read(&NOTE)?;
    println!(
        "note: {} data blocks, {} blocks in all",
        layout.data_blocks(),
        layout.blocks()
    );
    show_groups(&layout);
    let price = layout.price(Limits {
        storage: 1.75,
        reads: 2.0,
    })?;
    let Price::Fits { storage, reads } = price else {
        return Err("the layout does not fit its limits".into());
    };
    println!("price: {storage:.2} times the data stored, {reads:.2} blocks read for a lost one");
    let mut corrected = RECORDS;
    corrected[2] = b"crew 31, train, rest 21:15-05:15";
    let mut day = Day::encoded(layout, RECORDS)?;
    day.lose(0)?;
    day.show_plan(0)?;
    day.lose(4)?;
    day.correct_time(2, b"21:15")?;
    day.lose(2)?;
    for block in 0..3 {
        day.read(block)?;
    }
    day.rebuild(corrected)?;
    day.lose_too_much()
}
