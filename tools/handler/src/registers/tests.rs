//! Numbers and names go both ways, in every numbering, and each old number goes to the new one of its register.
use super::{Field, Map, Register, Setting, MAP, MAP_248, MAP_64};

fn name(map: &Map, number: u16) -> Option<String> {
    map.register(number).map(|register| register.to_string())
}

fn number(map: &Map, name: &str) -> Option<u16> {
    map.number(Register::named(name)?)
}

#[test]
fn registers_are_named_as_document_01_has_them() {
    for (number, wanted) in [
        (0, Some("INTR_STATE")),
        (1, Some("INTR_ENABLE")),
        (2, Some("INTR_TEST")),
        (3, None),
        (4, None),
        (5, None),
        (6, None),
        (22, Some("LOC_ALERT6_REGWEN")),
        (23, None),
        (24, Some("LOC_ALERT0_EN")),
        (42, Some("LOC_ALERT2_CAUSE")),
        (47, None),
        (63, None),
        (64, Some("ALERT0_REGWEN")),
        (133, Some("ALERT5_EN")),
        (255, Some("ALERT63_CLASS")),
        (319, Some("ALERT63_CAUSE")),
        (320, Some("CLASSA_REGWEN")),
        (321, Some("CLASSA_CTRL")),
        (332, Some("CLASSA_STATE")),
        (333, None),
        (336, Some("CLASSB_REGWEN")),
        (378, Some("CLASSD_PHASE3_CYC")),
        (380, Some("CLASSD_STATE")),
        (383, None),
        (384, None),
        (512, None),
        (1023, None),
    ] {
        assert_eq!(name(&MAP_64, number).as_deref(), wanted, "{number}");
    }
    assert_eq!(MAP_64.end(), 384);
}

#[test]
fn registers_are_named_as_requests_iii_and_ix_have_them() {
    for (number, wanted) in [
        (2, Some("INTR_TEST")),
        (3, None),
        (4, Some("PING_TIMER_REGWEN")),
        (5, Some("PING_TIMEOUT_CYC")),
        (6, Some("PING_TIMER_EN")),
        (7, None),
        (46, Some("LOC_ALERT6_CAUSE")),
        (64, None),
        (255, None),
        (256, Some("ALERT0_REGWEN")),
        (503, Some("ALERT247_REGWEN")),
        (504, None),
        (511, None),
        (512, Some("ALERT0_EN")),
        (512 + 247, Some("ALERT247_EN")),
        (512 + 248, None),
        (768, Some("ALERT0_CLASS")),
        (1024, Some("ALERT0_CAUSE")),
        (1271, Some("ALERT247_CAUSE")),
        (1279, None),
        (1280, Some("CLASSA_REGWEN")),
        (1292, Some("CLASSA_STATE")),
        (1293, None),
        (1280 + 16 * 3 + 12, Some("CLASSD_STATE")),
        (1344, None),
        (2047, None),
    ] {
        assert_eq!(name(&MAP, number).as_deref(), wanted, "{number}");
        let older = wanted.filter(|_| !(4..=6).contains(&number));
        assert_eq!(name(&MAP_248, number).as_deref(), older, "{number}");
    }
    assert_eq!((MAP.end(), MAP_248.end()), (1344, 1344));
    assert_eq!(number(&MAP_64, "ALERT64_EN"), None);
    assert_eq!(number(&MAP, "ALERT64_EN"), Some(576));
    assert_eq!(number(&MAP, "ALERT248_EN"), None);
}

#[test]
fn an_old_number_is_carried_to_the_same_register() {
    let mut carried = Vec::new();
    for n in 0..=u16::MAX {
        assert_eq!(MAP.carry(n), MAP.register(n).map(|_| n));
        assert_eq!(MAP_248.carry(n), MAP_248.register(n).map(|_| n));
        let new = MAP_64.carry(n);
        assert_eq!(new.and_then(|new| name(&MAP, new)), name(&MAP_64, n), "{n}");
        carried.extend(new);
    }
    assert_eq!(carried.len(), 3 + 4 * (7 + 64) + 4 * 13);
    assert!(carried.windows(2).all(|two| two[0] < two[1]));
    for (old, new) in [
        (2, Some(2)),
        (3, None),
        (4, None),
        (6, None),
        (46, Some(46)),
        (64, Some(256)),
        (127, Some(319)),
        (128, Some(512)),
        (255, Some(768 + 63)),
        (319, Some(1024 + 63)),
        (320, Some(1280)),
        (333, None),
        (380, Some(1340)),
        (384, None),
        (512, None),
        (1023, None),
    ] {
        assert_eq!(MAP_64.carry(old), new, "{old}");
    }
}

#[test]
fn a_name_gives_its_number_and_nothing_else_does() {
    for map in [MAP, MAP_248, MAP_64] {
        let mut assigned = 0;
        for n in 0..=u16::MAX {
            if let Some(name) = name(&map, n) {
                assert_eq!(number(&map, &name), Some(n), "{name}");
                assigned += 1;
            }
        }
        let timer = 3 * usize::from(map.timer);
        assert_eq!(assigned, 3 + timer + 4 * (7 + map.alerts) + 4 * 13);
    }
    for other in [
        "",
        "1",
        "INTR",
        "CLASSA",
        "CLASS_CTRL",
        "CLASSE_CTRL",
        "CLASSAA_CTRL",
        "CLASSA_EN",
        "classa_ctrl",
        "ALERT_EN",
        "ALERT5_CTRL",
        "ALERT00_EN",
        "ALERT+5_EN",
        "ALERT-1_EN",
        "ALERT99999999999999999999_EN",
        "ALERT18446744073709551615_EN",
        "LOC_ALERT7_EN",
        " INTR_STATE",
    ] {
        assert_eq!(number(&MAP, other), None, "{other}");
    }
}

#[test]
fn the_lists_are_in_the_order_of_the_numbers() {
    for map in [MAP, MAP_248, MAP_64] {
        for (at, setting) in Setting::ALL.into_iter().enumerate() {
            assert_eq!(map.class(0, setting), map.block(0) + at as u16);
        }
        for (at, field) in Field::ALL.into_iter().enumerate() {
            assert_eq!(map.local(field, 0), 16 + 8 * at as u16);
            assert_eq!(map.alert(field, 0), map.stride * (1 + at as u16));
        }
    }
    assert_eq!(Setting::PHASES[..], Setting::ALL[7..11]);
}

#[test]
fn shadowed_are_those_that_requests_v_and_ix_name() {
    for map in [MAP, MAP_248, MAP_64] {
        let shadowed = |n: &u16| map.register(*n).map_or(false, |it| it.is_shadowed());
        assert_eq!(
            (0..=u16::MAX).filter(shadowed).count(),
            usize::from(map.timer) + 2 * (7 + map.alerts) + 4 * 7
        );
    }
    for name in [
        "PING_TIMEOUT_CYC",
        "LOC_ALERT6_EN",
        "ALERT0_CLASS",
        "CLASSD_CTRL",
        "CLASSA_ACCUM_THRESH",
        "CLASSB_TIMEOUT_CYC",
        "CLASSC_PHASE3_CYC",
    ] {
        assert!(
            Register::named(name).map_or(false, |it| it.is_shadowed()),
            "{name}"
        );
    }
    for name in [
        "INTR_ENABLE",
        "PING_TIMER_REGWEN",
        "PING_TIMER_EN",
        "LOC_ALERT6_CAUSE",
        "ALERT0_REGWEN",
        "CLASSD_CLR",
        "CLASSA_REGWEN",
        "CLASSB_CLR_REGWEN",
    ] {
        assert!(
            Register::named(name).map_or(false, |it| !it.is_shadowed()),
            "{name}"
        );
    }
}
