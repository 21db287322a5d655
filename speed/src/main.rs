//! How fast the proved gateway is beside plain programs of the same scheme. `speed/run` says how it is called.

mod boundary;
mod cipher;
mod counts;
mod each_call;
mod judging;
mod ours;
mod permutation;
mod plain;
mod programs;
mod stopwatch;
mod stores;
mod trace;

fn main() {
    let words: Vec<String> = std::env::args().skip(1).collect();
    let words: Vec<&str> = words.iter().map(String::as_str).collect();
    match words[..] {
        ["work", what, ref numbers @ ..] => counts::work(what, numbers),
        _ => words.into_iter().for_each(put),
    }
}

fn put(table: &str) {
    match table {
        "1" => permutation::put_table(),
        "2" => judging::put_tables(),
        "3" => boundary::put_table(),
        "4" => programs::put_table(&programs::PRINTING),
        "5" => programs::put_table(&programs::FORWARDING),
        "counts" => counts::put_tables(),
        "stores" => stores::put_table(),
        _ => panic!("there is no table {table}"),
    }
}
