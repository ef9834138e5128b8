//! The messages that are timed, of the kinds that a gateway sees, and a dictionary for them: made here, so that nothing has to be at hand.

/// A message's name and its bytes.
pub struct Sent {
    pub name: String,
    pub bytes: Vec<u8>,
}

/// What the messages hold: a tag, or in brackets a group's tag and its items.
const HEADER: &str = "8 9 35 49 56 115 128 34 50 57 43 97 52 122";
const TRAILER: &str = "93 89 10";
const PARTIES: &str = "( 453 448 447 452 ( 802 523 803 ) )";
const HEARTBEAT: &str = "0 112";
const ORDER: &str = "D 11 1 @ 18 21 55 48 22 54 60 38 40 44 15 59 126 58";
const REPORT: &str = "8 37 198 11 41 @ 17 150 39 1 55 48 22 54 38 40 44 99 15 59 18 32 31 30 29 151 14 6 75 60 58 381";
const SNAPSHOT: &str = "W 262 55 48 22 ( 268 269 270 15 271 272 273 276 336 299 290 58 )";
const BLOCK: &str = "E 66 394 68 ( 73 11 67 @ 1 ( 78 79 661 ( 539 524 525 538 ) 80 ) 21 55 54 60 38 40 44 59 58 )";

fn put_tag(into: &mut Vec<u8>, kind: u8, tag: u32, rest: &[u8]) {
    into.push(kind);
    into.extend_from_slice(&tag.to_le_bytes());
    into.extend_from_slice(rest);
}

fn put_items(into: &mut Vec<u8>, items: &str) {
    let mut opens = false;
    for word in items.split(' ').flat_map(|word| if word == "@" { PARTIES.split(' ').collect() } else { vec![word] }) {
        match word {
            "(" => opens = true,
            ")" => into.push(7),
            tag => put_tag(into, if std::mem::take(&mut opens) { 6 } else { 4 }, tag.parse().expect("a tag"), &[0]),
        }
    }
    into.push(7);
}

/// The flat dictionary of all that is sent, and of `fields` plain fields from `first` on, `step` apart, in a message of type `N`.
pub fn dictionary(first: u32, step: u32, fields: u32) -> Vec<u8> {
    let plain: Vec<String> = (0..fields).map(|i| (first + step * i).to_string()).collect();
    let plain = format!("N {}", plain.join(" "));
    let messages = [HEARTBEAT, ORDER, REPORT, SNAPSHOT, BLOCK, &plain];
    let mut flat = vec![];
    for text in [HEADER, TRAILER, PARTIES].into_iter().chain(messages.iter().map(|text| &text[2..])) {
        for tag in text.split(' ').filter_map(|word| word.parse().ok()) {
            put_tag(&mut flat, 1, tag, &[]);
        }
    }
    for (number, items) in [HEADER, TRAILER].into_iter().enumerate() {
        flat.extend_from_slice(&[2, number as u8, 0]);
        put_items(&mut flat, items);
    }
    for text in messages {
        flat.extend_from_slice(&[3, text.as_bytes()[0], 0, 0, 0, 0, 0, 0, 0]);
        put_items(&mut flat, &text[2..]);
    }
    flat
}

/// A message of its fields from MsgType on, with BeginString, BodyLength and CheckSum; `|` stands for 0x01.
fn framed(fields: &str) -> Vec<u8> {
    let mut bytes = format!("8=FIX.4.4|9={}|{fields}", fields.len()).replace('|', "\x01").into_bytes();
    let sum = bytes.iter().fold(0u8, |sum, byte| sum.wrapping_add(*byte));
    bytes.extend_from_slice(format!("10={sum:03}\x01").as_bytes());
    bytes
}

/// A message with a usual header in front of its body.
fn whole(kind: &str, number: usize, body: &str) -> Vec<u8> {
    framed(&format!("35={kind}|49=BUYSIDE|56=SELLSIDE|34={number}|52=20261116-09:30:00.123|{body}"))
}

fn parties(names: &[&str]) -> String {
    let entries: String = names.iter().zip(1..).map(|(name, role)| format!("448={name}|447=D|452={role}|")).collect();
    format!("453={}|{entries}", names.len())
}

fn heartbeat(number: usize) -> Vec<u8> {
    whole("0", number, "")
}

fn order(number: usize) -> Vec<u8> {
    let body = format!(
        "11=ORD{number:06}|1=ACC{}|21=1|55=VOD.L|54={}|60=20261116-09:30:00.123|38={}|40=2|44=72.{:02}|59=0|",
        number % 90,
        1 + number % 2,
        100 * (1 + number % 40),
        number % 100
    );
    whole("D", number, &body)
}

fn report(number: usize) -> Vec<u8> {
    let body = format!(
        "37=EX{number:06}|11=ORD{number:06}|{}17=E{number}|150=F|39=1|1=ACC{}|55=VOD.L|48=GB00BH4HKS39|22=4|54=1|38=5000|40=2|44=72.45|15=GBP|59=0|32={}|31=72.45|30=XLON|151=2500|14=2500|6=72.44|60=20261116-09:30:00.123|58=part fill|",
        parties(&["DEALER", "CLEARER"]),
        number % 90,
        100 * (1 + number % 20)
    );
    whole("8", number, &body)
}

fn snapshot(number: usize, levels: usize) -> Vec<u8> {
    let entries: String = (0..levels)
        .map(|i| format!("269={}|270=72.{:02}|15=GBP|271={}00|272=20261116|273=09:30:00.123|", i % 2, (number + i) % 100, 1 + i))
        .collect();
    whole("W", number, &format!("262=R{number}|55=VOD.L|48=GB00BH4HKS39|22=4|268={levels}|{entries}"))
}

fn block(number: usize, orders: usize) -> Vec<u8> {
    let entries: String = (0..orders)
        .map(|i| {
            let shares: String =
                (0..3).map(|j| format!("79=ALLOC{j}|661=99|539=2|524=FUND{j}|525=D|538=1|524=CUST{j}|525=D|538=3|80={}|", 100 + j)).collect();
            format!(
                "11=L{number}-{i}|67={}|{}1=BLOCK|78=3|{shares}21=1|55=VOD.L|54=1|60=20261116-09:30:00.123|38=60000|40=2|44=72.45|59=0|",
                i + 1,
                parties(&["DEALER"])
            )
        })
        .collect();
    whole("E", number, &format!("66=LIST{number}|394=3|68={orders}|73={orders}|{entries}"))
}

/// One message of each kind.
pub fn kinds() -> Vec<Sent> {
    let named = |name: &str, bytes| Sent { name: name.to_string(), bytes };
    vec![
        named("heartbeat", heartbeat(1)),
        named("order", order(2)),
        named("report", report(3)),
        named("snapshot", snapshot(4, 20)),
        named("block", block(5, 6)),
    ]
}

/// A day's flow: of sixteen messages six are orders, six reports, two heartbeats, one a snapshot and one a block of one or two orders.
pub fn flow(count: usize) -> Vec<Sent> {
    let message = |i: usize| match i % 16 {
        0 | 3 | 5 | 8 | 10 | 13 => order(i),
        1 | 4 | 6 | 9 | 11 | 14 => report(i),
        2 | 7 => heartbeat(i),
        12 => snapshot(i, 10 + i % 11),
        _ => block(i, 1 + i % 2),
    };
    (0..count).map(|i| Sent { name: "flow".to_string(), bytes: message(i) }).collect()
}

/// A message with so many plain fields in its body, each of one byte.
pub fn plain(first: u32, step: u32, fields: u32) -> Vec<u8> {
    let body: String = (0..fields).map(|i| format!("{}={}|", first + step * i, i % 10)).collect();
    framed(&format!("35=N|{body}"))
}
