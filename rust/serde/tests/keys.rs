//! Keys that are written are read as they were, in formats for people and in others.

use serde_test::{assert_de_tokens_error, assert_tokens, Configure, Token};
use teurlaks::{new_key_type, Key, TypedSlab};
use teurlaks_serde::SerdeKey;

new_key_type! { struct PlayerKey; }

fn key(text: &str) -> SerdeKey {
    SerdeKey(text.parse().unwrap())
}

#[test]
fn as_texts() {
    assert_tokens(&key("0.3/17/1").readable(), &[Token::String("0.3/17/1")]);
    let greatest = "255.4294967295/255/4294967295";
    assert_tokens(&key(greatest).readable(), &[Token::String(greatest)]);
    let slab = TypedSlab::<PlayerKey, _>::new().and_then(|mut slab| slab.insert("Ann"));
    let typed = SerdeKey(slab.unwrap());
    assert_tokens(&typed.readable(), &[Token::String("0.0/0/1")]);
}

#[test]
fn as_numbers() {
    let tokens = |high, low| {
        [
            Token::Tuple { len: 2 },
            Token::U16(high),
            Token::U64(low),
            Token::TupleEnd,
        ]
    };
    assert_tokens(&key("0.0/0/1").compact(), &tokens(0, 1));
    assert_tokens(
        &key("2.3/17/9").compact(),
        &tokens(2 << 8, 3 << 40 | 17 << 32 | 9),
    );
    assert_tokens(
        &key("255.4294967295/255/4294967295").compact(),
        &tokens(u16::MAX, u64::MAX),
    );
}

#[test]
fn what_may_be_a_key() {
    assert_tokens(
        &Some(key("0.0/1/1")).readable(),
        &[Token::Some, Token::String("0.0/1/1")],
    );
    assert_tokens(&None::<SerdeKey>.readable(), &[Token::None]);
}

#[test]
fn what_is_no_key() {
    let form = "a key has the form shard.serial/slot/generation, as 0.3/17/1";
    assert_de_tokens_error::<SerdeReadable>(&[Token::Str("0.3/17")], form);
    let range = "a number is greater than a key has it, or the generation is 0";
    assert_de_tokens_error::<SerdeReadable>(&[Token::Str("0.3/17/0")], range);
}

type SerdeReadable = serde_test::Readable<SerdeKey<Key>>;
