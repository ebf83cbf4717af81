//! Records and their spelling in version 2.

use crate::base::{BLOCK, KeyName, Lane, LinkNo, SaeNo};
use crate::payload::Fact;

const NAMES_PER_RECORD: usize = 128;

pub enum Record<'a> {
    Block {
        link: LinkNo,
        number: u32,
        bytes: &'a [u8; BLOCK],
    },
    Lease {
        lane: Lane,
        end: u64,
    },
    Learned(Fact),
    Acked(KeyName),
    Handed {
        name: KeyName,
        sae: SaeNo,
    },
}

/// The length of a body of `count` Learned records of `payload` octets each.
pub fn learned_length(count: usize, payload: usize) -> usize {
    2 + count * (3 + payload)
}

/// Appends the body: the number of spelled records, then the records.
pub fn spell_batch(batch: &[Record], out: &mut Vec<u8>) {
    let start = out.len();
    out.extend_from_slice(&[0, 0]);
    let mut spelled = 0u16;
    let mut rest = batch;
    while let Some((record, behind)) = rest.split_first() {
        rest = behind;
        spelled += 1;
        match record {
            Record::Block {
                link,
                number,
                bytes,
            } => {
                out.extend_from_slice(&[1, *link]);
                out.extend_from_slice(&number.to_be_bytes());
                out.extend_from_slice(*bytes);
            }
            Record::Lease { lane, end } => {
                out.extend_from_slice(&[2, lane.link, lane.way as u8]);
                out.extend_from_slice(&end.to_be_bytes());
            }
            Record::Learned(fact) => {
                out.push(3);
                out.extend_from_slice(&(fact.spelled_len() as u16).to_be_bytes());
                fact.spell(out);
            }
            Record::Acked(name) => {
                out.push(4);
                out.extend_from_slice(&name.to_short());
            }
            Record::Handed { name, sae } => {
                let run: Vec<KeyName> = std::iter::once(*name)
                    .chain(behind.iter().map_while(|next| match next {
                        Record::Handed { name, sae: of } if of == sae => Some(*name),
                        _ => None,
                    }))
                    .take(NAMES_PER_RECORD)
                    .collect();
                rest = &behind[run.len() - 1..];
                out.extend_from_slice(&[5, 0, *sae]);
                out.extend_from_slice(&(run.len() as u16).to_be_bytes());
                for name in &run {
                    out.extend_from_slice(&name.to_short());
                }
            }
        }
    }
    out[start..start + 2].copy_from_slice(&spelled.to_be_bytes());
}

#[cfg(test)]
mod tests {
    use super::*;
    use crate::base::NameKind;

    #[test]
    fn a_handing_in_version_2() {
        let name = KeyName::new(0, NameKind::Key, 1).unwrap();
        let mut body = Vec::new();
        spell_batch(&[Record::Handed { name, sae: 0 }], &mut body);
        assert_eq!(body, [0, 1, 5, 0, 0, 0, 1, 0, 0, 0, 0, 0, 0, 1]);
    }

    #[test]
    fn a_run_of_handed_records_is_cut_at_128() {
        let name = |count| KeyName::new(1, NameKind::Key, count).unwrap();
        let batch: Vec<Record> = (1..=130)
            .map(|count| Record::Handed {
                name: name(count),
                sae: 7,
            })
            .collect();
        let mut body = Vec::new();
        spell_batch(&batch, &mut body);
        assert_eq!(body[..7], [0, 2, 5, 0, 7, 0, 128]);
        assert_eq!(body.len(), 2 + 5 + 128 * 7 + 5 + 2 * 7);
    }
}
