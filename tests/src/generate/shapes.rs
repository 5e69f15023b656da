//! Mutations around checks 4 to 8: stops, end patterns, statements, lengths, repeated keys.

use super::dress;
use super::plan::{BlockPlan, Plan, Statement};
use super::random::Random;

/// A block of the plan, the first and the last more often than the others.
pub fn any_block<'a>(random: &mut Random, plan: &'a mut Plan) -> Option<&'a mut BlockPlan> {
    let count = plan.blocks.len();
    let number = match random.below(4) {
        0 => 0,
        1 => count.saturating_sub(1),
        _ => random.below(count),
    };
    plan.blocks.get_mut(number)
}

/// A statement of a block, none where it has none.
pub fn any_statement<'a>(random: &mut Random, block: &'a mut BlockPlan) -> Option<&'a mut Statement> {
    let number = random.below(block.statements.len());
    block.statements.get_mut(number)
}

/// 4: a stop, or a byte just not one.
pub fn stop(random: &mut Random, plan: &mut Plan) -> Option<()> {
    let byte = random.pick(&[0, 1, 127, 128, 255, b'{', b'{', b'}', b'z']);
    let block = any_block(random, plan)?;
    let places = random.below(3);
    let bytes = match (places, random.below(block.statements.len())) {
        (0, number) => block.statements.get_mut(number).map(|s| &mut s.key),
        (1, number) => block.statements.get_mut(number).map(|s| &mut s.value),
        _ => Some(&mut block.tail),
    }?;
    bytes.insert(random.below(bytes.len() + 1), byte);
    Some(())
}

/// 5: end patterns.
pub fn close(random: &mut Random, plan: &mut Plan) -> Option<()> {
    let close = random.pick(&[&b"}"[..], b"}\r", b"} \n", b"}\r\r\n", b"}\n", b"}\r\n", b"}\n\n", b"", b"}\0", b"}{\n"]);
    any_block(random, plan)?.close = close.to_vec();
    Some(())
}

/// 6: what is no statement.
pub fn no_statement(random: &mut Random, plan: &mut Plan) -> Option<()> {
    let block = any_block(random, plan)?;
    match random.below(7) {
        0 => block.tail.extend(random.pick(&[&b"x"[..], b"\"", b"=", b"a=b", b"\x01", b"\x0b"])),
        1 => block.tail.extend(random.pick(&[&b";"[..], b" ;", b"a;", b"=;", b" = ;", b"a=;"])),
        2 => any_statement(random, block)?.equals = vec![],
        3 => any_statement(random, block)?.equals = b"==".to_vec(),
        4 => any_statement(random, block)?.key = random.pick(&[&b""[..], b" ", b"\r\n", b"\x0b", b"\x01", b"\""]).to_vec(),
        5 => any_statement(random, block)?.value.extend(random.pick(&[&b";"[..], b";x", b"; ", b";x="])),
        _ => any_statement(random, block)?.key.extend(b"\"=\""),
    }
    Some(())
}

/// 7: keys of 63 to 66 characters, values of 2,046 to 2,050 bytes.
pub fn long(random: &mut Random, plan: &mut Plan) -> Option<()> {
    let block = any_block(random, plan)?;
    let statement = if random.percent(50) { long_key(random) } else { long_value(random) };
    let place = random.from_to(block.top(), block.statements.len());
    block.statements.insert(place, statement);
    Some(())
}

fn long_key(random: &mut Random) -> Statement {
    let name = "k".repeat(random.from_to(63, 66));
    Statement::new(&dress::key(random, &name), b" 1 ")
}

fn long_value(random: &mut Random) -> Statement {
    let bytes = vec![random.pick(b"v\\ls\""); random.from_to(2_046, 2_050)];
    Statement::new(b"\r\nLong ", &dress::value(random, &bytes))
}

/// 8: a key again, written another way, or nearly the same key.
pub fn again(random: &mut Random, plan: &mut Plan) -> Option<()> {
    let block = any_block(random, plan)?;
    let mut statement = any_statement(random, block)?.clone();
    statement.key = dress::sought(random, &statement.key);
    if random.percent(30) {
        statement.key.push(random.pick(b"_1@[`{~"));
    }
    let place = random.from_to(1, block.statements.len());
    block.statements.insert(place, statement);
    Some(())
}

/// 8: a header of many statements, one of them perhaps again at any distance.
pub fn crowd(random: &mut Random, plan: &mut Plan) -> Option<()> {
    let count = random.pick(&[10, 30, 100, 100, 200, 400, 600]);
    let count = if random.percent(2) { random.from_to(2_000, 5_000) } else { count };
    let first = random.below(10_000);
    let block = any_block(random, plan)?;
    let top = block.top();
    let mut crowd: Vec<Statement> = (first..first + count).map(|number| Statement::new(format!("k{number}").as_bytes(), b"")).collect();
    if random.percent(50) {
        let mut statement = random.pick(&crowd);
        statement.key = dress::sought(random, &statement.key);
        if random.percent(30) {
            statement.key.push(b'_');
        }
        crowd.insert(random.below(count + 1), statement);
    }
    block.statements.splice(top..top, crowd);
    Some(())
}
