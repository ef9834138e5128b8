//! Messages that public documents of FIX show, BodyLength and CheckSum included, over a dictionary with the standard's layouts of their types.
//! docs/COMPARED.md says where they are known from and what each answers.
use super::Sink;
use super::shape::{Node, Shape};
use crate::protocol::{Reading, Request, VALIDATE};
use Node::{Component, Field, Group};

/// `|` stands for byte 0x01.
const MESSAGES: [&str; 34] = [
    "8=FIX.4.2|9=178|35=8|49=PHLX|56=PERS|52=20071123-05:30:00.000|11=ATOMNOCCC9990900|20=3|150=E|39=E|55=MSFT|167=CS|54=1|38=15|40=2|44=15|58=PHLX EQUITY TESTING|59=0|47=C|32=0|31=0|151=15|14=0|6=0|10=128|",
    "8=FIX.4.2|9=65|35=A|49=SERVER|56=CLIENT|34=177|52=20090107-18:15:16|98=0|108=30|10=062|",
    "8=FIX.4.1|9=61|35=A|34=1|49=EXEC|52=20121105-23:24:06|56=BANZAI|98=0|108=30|10=003|",
    "8=FIX.4.1|9=61|35=A|34=1|49=BANZAI|52=20121105-23:24:06|56=EXEC|98=0|108=30|10=003|",
    "8=FIX.4.1|9=49|35=0|34=2|49=BANZAI|52=20121105-23:24:37|56=EXEC|10=228|",
    "8=FIX.4.1|9=49|35=0|34=2|49=EXEC|52=20121105-23:24:37|56=BANZAI|10=228|",
    "8=FIX.4.1|9=103|35=D|34=3|49=BANZAI|52=20121105-23:24:42|56=EXEC|11=1352157882577|21=1|38=10000|40=1|54=1|55=MSFT|59=0|10=062|",
    "8=FIX.4.1|9=139|35=8|34=3|49=EXEC|52=20121105-23:24:42|56=BANZAI|6=0|11=1352157882577|14=0|17=1|20=0|31=0|32=0|37=1|38=10000|39=0|54=1|55=MSFT|150=2|151=0|10=059|",
    "8=FIX.4.1|9=153|35=8|34=4|49=EXEC|52=20121105-23:24:42|56=BANZAI|6=12.3|11=1352157882577|14=10000|17=2|20=0|31=12.3|32=10000|37=2|38=10000|39=2|54=1|55=MSFT|150=2|151=0|10=230|",
    "8=FIX.4.1|9=103|35=D|34=4|49=BANZAI|52=20121105-23:24:55|56=EXEC|11=1352157895032|21=1|38=10000|40=1|54=1|55=ORCL|59=0|10=047|",
    "8=FIX.4.1|9=139|35=8|34=5|49=EXEC|52=20121105-23:24:55|56=BANZAI|6=0|11=1352157895032|14=0|17=3|20=0|31=0|32=0|37=3|38=10000|39=0|54=1|55=ORCL|150=2|151=0|10=049|",
    "8=FIX.4.1|9=153|35=8|34=6|49=EXEC|52=20121105-23:24:55|56=BANZAI|6=12.3|11=1352157895032|14=10000|17=4|20=0|31=12.3|32=10000|37=4|38=10000|39=2|54=1|55=ORCL|150=2|151=0|10=220|",
    "8=FIX.4.1|9=108|35=D|34=5|49=BANZAI|52=20121105-23:25:12|56=EXEC|11=1352157912357|21=1|38=10000|40=2|44=10|54=1|55=SPY|59=0|10=003|",
    "8=FIX.4.1|9=138|35=8|34=7|49=EXEC|52=20121105-23:25:12|56=BANZAI|6=0|11=1352157912357|14=0|17=5|20=0|31=0|32=0|37=5|38=10000|39=0|54=1|55=SPY|150=2|151=0|10=252|",
    "8=FIX.4.1|9=104|35=F|34=6|49=BANZAI|52=20121105-23:25:16|56=EXEC|11=1352157916437|38=10000|41=1352157912357|54=1|55=SPY|10=198|",
    "8=FIX.4.1|9=104|35=F|34=7|49=BANZAI|52=20121105-23:25:25|56=EXEC|11=1352157925309|38=10000|41=1352157912357|54=1|55=SPY|10=197|",
    "8=FIX.4.4|9=126|35=A|49=theBroker.12345|56=CSERVER|34=1|52=20170117-08:03:04|57=TRADE|50=any_string|98=0|108=30|141=Y|553=12345|554=passw0rd!|10=131|",
    "8=FIX.4.4|9=106|35=A|34=1|49=CSERVER|50=TRADE|52=20170117-08:03:04.509|56=theBroker.12345|57=any_string|98=0|108=30|141=Y|10=066|",
    "8=FIX.4.4|9=143|35=D|49=theBroker.12345|56=CSERVER|34=77|52=20170117-10:02:14|50=any_string|57=TRADE|11=876316397|55=1|54=1|60=20170117-10:02:14|40=1|38=10000|10=010|",
    "8=FIX.4.4|9=197|35=8|34=77|49=CSERVER|50=TRADE|52=20170117-10:02:14.720|56=theBroker.12345|57=any_string|11=876316397|14=0|37=101|38=10000|39=0|40=1|54=1|55=1|59=3|60=20170117-10:02:14.591|150=0|151=10000|721=101|10=149|",
    "8=FIX.4.4|9=148|35=D|34=1080|49=TESTBUY1|52=20180920-18:14:19.508|56=TESTSELL1|11=636730640278898634|15=USD|21=2|38=7000|40=1|54=1|55=MSFT|60=20180920-18:14:19.492|10=092|",
    "8=FIX.4.4|9=289|35=8|34=1090|49=TESTSELL1|52=20180920-18:23:53.671|56=TESTBUY1|6=113.35|11=636730640278898634|14=3500.0000000000|15=USD|17=20636730646335310000|21=2|31=113.35|32=3500|37=20636730646335310000|38=7000|39=1|40=1|54=1|55=MSFT|60=20180920-18:23:53.531|150=F|151=3500|453=1|448=BRK2|447=D|452=1|10=151|",
    "8=FIX.4.4|9=75|35=A|34=1092|49=TESTBUY1|52=20180920-18:24:59.643|56=TESTSELL1|98=0|108=60|10=178|",
    "8=FIX.4.4|9=63|35=5|34=1091|49=TESTBUY1|52=20180920-18:24:58.675|56=TESTSELL1|10=138|",
    "8=FIX.4.2|9=163|35=D|34=972|49=TESTBUY3|52=20190206-16:25:10.403|56=TESTSELL3|11=141636850670842269979|21=2|38=100|40=1|54=1|55=AAPL|60=20190206-16:25:08.968|207=TO|6000=TEST1234|10=106|",
    "8=FIX.4.2|9=74|35=A|34=978|49=TESTSELL3|52=20190206-16:29:19.208|56=TESTBUY3|98=0|108=60|10=137|",
    "8=FIX.4.2|9=62|35=5|34=977|49=TESTSELL3|52=20190206-16:28:51.518|56=TESTBUY3|10=092|",
    "8=FIX.4.2|9=42|35=0|49=A|56=B|34=12|52=20100304-07:59:30|10=185|",
    "8=FIX.4.2|9=97|35=6|49=BKR|56=IM|34=14|52=20100204-09:18:42|23=115685|28=N|55=SPMI.MI|54=2|44=2200.75|27=S|25=H|10=248|",
    "8=FIX.4.4|9=117|35=AD|34=2|49=A|50=1|52=20100219-14:33:32.258|56=B|57=M|263=1|568=1|569=0|580=1|75=20100218|60=20100218-00:00:00.000|10=202|",
    "8=FIX.4.4|9=94|35=3|34=214|49=A|50=U1|52=20100304-09:42:23.130|56=AB|128=B1|45=176|58=txt|371=15|372=X|373=1|10=058|",
    "8=FIX.4.4|9=70|35=4|49=A|56=XYZ|34=129|52=20100302-19:38:21|43=Y|57=LOL|123=Y|36=175|10=192|",
    "8=FIX.4.4|9=122|35=D|34=215|49=CLIENT12|52=20100225-19:41:57.316|56=B|1=Marcel|11=13346|21=1|40=2|44=5|54=1|59=0|60=20100225-19:39:52.020|10=072|",
    "8=FIX.4.2|9=196|35=X|49=A|56=B|34=12|52=20100318-03:21:11.364|262=A|268=2|279=0|269=0|278=BID|55=EUR/USD|270=1.37215|15=EUR|271=2500000|346=1|279=0|269=1|278=OFFER|55=EUR/USD|270=1.37224|15=EUR|271=2503200|346=1|10=171|",
];

const HEADER: [u32; 24] = [8, 9, 35, 49, 56, 115, 128, 34, 50, 142, 57, 143, 116, 144, 129, 145, 43, 97, 52, 122, 212, 213, 347, 369];
const TRAILER: [u32; 3] = [93, 89, 10];
const PARTIES: u16 = 2;
const INSTRUMENT: u16 = 3;

fn fields(tags: &[u32]) -> Vec<Node> {
    tags.iter().map(|tag| Field(*tag, false)).collect()
}

/// Required fields, then others.
fn layout(required: &[u32], others: Vec<Node>) -> Vec<Node> {
    required.iter().map(|tag| Field(*tag, true)).chain(others).collect()
}

fn parties() -> Vec<Node> {
    vec![Group(453, false, [fields(&[448, 447, 452]), vec![Group(802, false, fields(&[523, 803]))]].concat())]
}

fn instrument() -> Vec<Node> {
    [fields(&[55, 65, 48, 22]), vec![Group(454, false, fields(&[455, 456]))], fields(&[461, 167, 200, 541, 207, 106, 107])].concat()
}

fn with_instrument(others: &[u32]) -> Vec<Node> {
    [vec![Component(INSTRUMENT, true)], fields(others)].concat()
}

fn entry_of_prices(others: &[u32]) -> Vec<Node> {
    [vec![Field(279, true)], fields(&[285, 269, 278, 280]), with_instrument(others)].concat()
}

fn administrative() -> Vec<(&'static str, Vec<Node>)> {
    vec![
        ("0", fields(&[112])),
        (
            "A",
            layout(&[98, 108], [fields(&[95, 96, 141, 789, 383]), vec![Group(384, false, fields(&[372, 385]))], fields(&[464, 553, 554])].concat()),
        ),
        ("3", layout(&[45], fields(&[371, 372, 373, 58, 354, 355]))),
        ("4", layout(&[36], fields(&[123]))),
        ("5", fields(&[58, 354, 355])),
    ]
}

fn orders() -> Vec<(&'static str, Vec<Node>)> {
    let party = || vec![Component(PARTIES, false)];
    let report = [6, 14, 15, 17, 20, 21, 31, 32, 38, 40, 41, 44, 47, 58, 59, 60, 103, 110, 111, 1, 198, 526, 527];
    vec![
        ("8", layout(&[37, 150, 39, 54, 151], [party(), vec![Field(11, false)], with_instrument(&report)].concat())),
        ("D", layout(&[11, 54, 60, 40], [party(), with_instrument(&[1, 15, 18, 21, 38, 44, 47, 58, 59, 63, 99])].concat())),
        ("F", layout(&[41, 11, 54], with_instrument(&[38, 60, 58]))),
    ]
}

fn prices() -> Vec<(&'static str, Vec<Node>)> {
    let dates = Group(580, false, fields(&[75, 60]));
    let entries = Group(268, true, entry_of_prices(&[270, 15, 271, 272, 273, 346]));
    vec![
        ("6", layout(&[23, 28, 54, 27], with_instrument(&[44, 15, 62, 25, 130, 58]))),
        ("AD", layout(&[568, 569], [fields(&[263]), vec![Component(PARTIES, false)], with_instrument(&[]), vec![dates]].concat())),
        ("X", vec![Field(262, false), entries]),
    ]
}

fn shape() -> Shape {
    let messages = [administrative(), orders(), prices()].concat();
    let mut shape = Shape {
        known: vec![721],
        header: HEADER.to_vec(),
        trailer: TRAILER.to_vec(),
        components: vec![(PARTIES, parties()), (INSTRUMENT, instrument())],
        messages: messages.into_iter().map(|(kind, nodes)| (kind.as_bytes().to_vec(), nodes)).collect(),
    };
    shape.know_all();
    shape
}

/// Each message is built with validation on and off and encoded again; all of them are a stream, whole and in pieces.
pub fn standard(sink: Sink) {
    let bytes = |text: &str| text.replace('|', "\x01").into_bytes();
    let mut went_on = sink(Request::Dictionary(0, shape().bytes()));
    for text in MESSAGES {
        let reading = Reading { dictionary: 0, separator: 1, settings: VALIDATE, message: bytes(text) };
        let unchecked = Reading { settings: 0, ..reading.clone() };
        for request in [Request::Build(reading.clone()), Request::Build(unchecked), Request::Again(reading, 1)] {
            went_on = went_on && sink(request);
        }
    }
    for texts in MESSAGES.chunks(6) {
        let stream = bytes(&texts.concat());
        let pieces = stream.chunks(7).map(<[u8]>::to_vec).collect();
        went_on = went_on && sink(Request::Frames(vec![stream])) && sink(Request::Frames(pieces));
    }
}
