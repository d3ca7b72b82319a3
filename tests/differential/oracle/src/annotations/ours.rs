//! Our library's answers, through the crate `trovespan`.

use super::answers::{Annotation, Library, Number, Refusal, Step};

pub struct Ours;

impl Library for Ours {
    fn number(bytes: &[u8], at: usize) -> (Result<Number, Refusal>, usize) {
        let (number, place) = trovespan::number(bytes, at);
        let number = number.map(|number| Number {
            value: number.value,
            taken: number.taken,
            shortest: number.shortest,
        });
        (number.map_err(refusal), place)
    }

    fn steps(bytes: &[u8], at: usize) -> Vec<(Step, usize)> {
        let mut steps = Vec::new();
        let mut place = at;
        // Each step before the end takes at least a byte. The bound ends the loop even if one did not.
        while steps.len() <= bytes.len() {
            let (step, next) = trovespan::step(bytes, place);
            let end = step == trovespan::Step::End;
            steps.push((by_the_rules(step), next));
            if end {
                break;
            }
            place = next;
        }
        steps
    }

    fn decode(bytes: &[u8], store: &mut [i64]) -> Result<usize, (Refusal, Option<usize>)> {
        trovespan::decode(bytes, store).map_err(|why| (refusal(why.refusal), why.place))
    }
}

fn by_the_rules(step: trovespan::Step) -> Step {
    match step {
        trovespan::Step::Annotation {
            opcode,
            first,
            second,
            shortest,
            ..
        } => {
            let named = trovespan::BinaryAnnotation::new(opcode, first, second);
            Step::Annotation(Annotation {
                triple: [i64::from(opcode), first, second],
                shortest,
                emits: named.map(trovespan::BinaryAnnotation::emits_line_info),
            })
        }
        trovespan::Step::End => Step::End,
        trovespan::Step::Refused(why) => Step::Refused(refusal(why)),
    }
}

fn refusal(why: trovespan::Refusal) -> Refusal {
    (u64::from(why.number), why.value)
}
