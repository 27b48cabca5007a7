//! Every cell, type, count and user, and the numbers just outside: the whole midamble, in lent memory of lengths around
//! the needed one, and every chip by its own call.

use super::LARGEST;
use crate::beside::Beside;
use library::MqAnswer;

pub fn run(both: &mut Beside) {
    for cell in (0..=129).chain([LARGEST]) {
        for burst in [0, 1, 2, 3, 4, LARGEST] {
            for count in (0..=17).chain([LARGEST]) {
                for user in (0..=17).chain([LARGEST]) {
                    one_user(both, [cell, burst, count, user]);
                }
            }
        }
    }
}

fn one_user(both: &mut Beside, numbers: [u32; 4]) {
    let [cell, burst, count, user] = numbers;
    let needed = if burst == 2 { 256 } else { 512 };
    let mut answered = Err(0);
    for room in [0, 1, needed - 1, needed, needed + 1, 600] {
        answered = both.midamble(numbers, room);
    }
    for i in [0, needed as u32 + 1, LARGEST] {
        both.chip([cell, burst, count, user, i]);
    }
    match answered {
        Ok(memory) => {
            for (place, power) in memory[..needed].iter().enumerate() {
                let wanted = MqAnswer::giving((*power).into());
                both.chip_is([cell, burst, count, user, place as u32 + 1], wanted);
            }
        }
        Err(_) => {
            for i in [1, 256, 257, 512] {
                both.chip([cell, burst, count, user, i]);
            }
        }
    }
}
