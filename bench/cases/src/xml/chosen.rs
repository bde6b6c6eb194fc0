//! Hand-chosen texts, by the readings they try.

/// A text with a declaration, all five entities, both quotes, four attributes, a colon in the name of one, nesting, characters
/// of two, three and four bytes, `]]`, empty tags and blanks wherever they may stand. Every prefix of it is a case.
pub const RICH: &str = concat!(
    "<?xml version=\"1.0\" encoding=\"UTF-8\"?>\r\n",
    "<a-1 x = \"it's &amp; ]]> €\" _y:z_9.='\"&apos;ß' z.=''\tw\n=\n'>' >",
    "<b>]]&gt;&lt;&quot;ä𝄞</b ><b/><c\t/>]] ]><d><d>5</d></d>\u{fffd}",
    "</a-1\n>\n "
);

/// Every hand-chosen text.
pub fn chosen() -> Vec<Vec<u8>> {
    let mut texts: Vec<Vec<u8>> = Vec::new();
    for group in [STARTS, NAMES, TAGS, ATTRIBUTES, COLONS, END_TAGS, TEXTS, ENTITIES, AFTER] {
        texts.extend(group.iter().map(|text| text.as_bytes().to_vec()));
    }
    texts.extend(BYTES.iter().map(|text| text.to_vec()));
    texts.extend(characters());
    texts.extend(levels());
    texts
}

/// What may stand at the beginning: the declaration exactly, at byte 0, or blanks, then `<`.
const STARTS: &[&str] = &[
    "",
    " ",
    " \t\r\n",
    "a",
    "<",
    "<<",
    "</",
    "</a>",
    "<!",
    "<!-- -->",
    "<!DOCTYPE a><a/>",
    "\u{feff}<a/>",
    "\u{a0}<a/>",
    "\u{c}<a/>",
    "<?",
    "<?x",
    "<?xm",
    "<?xml?><a/>",
    "<?XML version=\"1.0\" encoding=\"UTF-8\"?><a/>",
    "<?xml  version=\"1.0\" encoding=\"UTF-8\"?><a/>",
    "<?xml version='1.0' encoding=\"UTF-8\"?><a/>",
    "<?xml version=\"1.1\" encoding=\"UTF-8\"?><a/>",
    "<?xml version=\"1.0\"?><a/>",
    "<?xml version=\"1.0\" encoding=\"utf-8\"?><a/>",
    "<?xml version=\"1.0\" encoding=\"UTF-8\" ?><a/>",
    "<?xml version=\"1.0\" encoding=\"UTF-8\" standalone=\"yes\"?><a/>",
    "<?xml version=\"1.0\" encoding=\"UTF-8\"?>",
    "<?xml version=\"1.0\" encoding=\"UTF-8\"?><a/>",
    "<?xml version=\"1.0\" encoding=\"UTF-8\"?> \n<a/>",
    "<?xml version=\"1.0\" encoding=\"UTF-8\"?><?xml version=\"1.0\" encoding=\"UTF-8\"?><a/>",
    "<?xml version=\"1.0\" encoding=\"UTF-8\"?>x<a/>",
    " <?xml version=\"1.0\" encoding=\"UTF-8\"?><a/>",
    "<a><?xml version=\"1.0\" encoding=\"UTF-8\"?></a>",
    "<a/><?pi?>",
    "&amp;<a/>",
];

/// "A name is a letter or `_`, then letters, digits, `.`, `-`, `_` (ASCII)."
const NAMES: &[&str] = &[
    "<a/>", "<_/>", "<Z.-_09az/>", "<1/>", "<-a/>", "<.a/>", "<:a/>", "<a:b/>", "<ä/>", "<aä/>", "<a€/>", "<a\u{b7}/>",
    "<a$/>", "< a/>", "<\ta/>", "<>", "</>",
];

/// "`<a/>` equals `<a></a>`." "Blanks are allowed before `>` and `/>`."
const TAGS: &[&str] = &[
    "<a></a>", "<a ></a >", "<a\r\n\t />", "<a/ >", "<a /", "<a / >", "<a//>", "<a/a>", "<a<", "<a\"\">", "<a =\"\"/>",
    "<a =", "<a>", "<a><b></b></a>", "<a><b/><b/></a>", "<a><b></a>", "<a><b></b>",
];

/// "At most four attributes, each after one or more blanks, all names different, blanks allowed around `=`, either quote".
const ATTRIBUTES: &[&str] = &[
    "<a b=\"\"/>", "<a b=''/>", "<a  b = \"1\"  c\t=\n'2' />", "<a b=\"'\" c='\"'/>", "<a b=\"\"\"/>", "<a b=1/>",
    "<a b/>", "<a b />", "<a b>", "<a b c=\"\"/>", "<a b=/>", "<a b==\"\"/>", "<a b:c=\"\"/>", "<a 1=\"\"/>",
    "<a b=\"<\"/>", "<a b=\">\"/>", "<a b=\"]]>\"/>", "<a b=\"a\nb\tc\rd\"/>", "<a b=\"&\"/>",
    "<a b=\"&amp;&lt;&gt;&quot;&apos;\"/>", "<a b=\"&amp\"/>", "<a b=\"&#65;\"/>", "<a b=\"\u{1}\"/>",
    "<a b=\"\u{ffff}\"/>", "<a b=\"ä€𝄞\"/>", "<a b=\"\"c=\"\"/>", "<a b=\"\" c=\"\" d=\"\" e=\"\"/>",
    "<a b=\"\" c=\"\" d=\"\" e=\"\" />", "<a b=\"\" c=\"\" d=\"\" e=\"\" f=\"\"/>",
    "<a b=\"\" c=\"\" d=\"\" e=\"\" b=\"\"/>", "<a b=\"\" b=\"\"/>", "<a b=\"\" b =\"\"/>", "<a b=\"\" bb=\"\"/>",
    "<a bb=\"\" b=\"\"/>", "<a b=\"\" c=\"\" b=\"\"/>", "<a b=\"\" c=\"\" d=\"\" c=\"\"/>", "<a b=\"\" B=\"\"/>",
    "<a b=\"\" b", "<a b=\"\" b ", "<a b=\"\" b/", "<a a=\"\"/>", "<a b=\"\"><c b=\"\"/></a>", "<a></a b=\"\">",
];

/// "Attribute names may hold one colon between two names; element names may not." "Duplicates are judged by full names; four
/// attributes stay the limit."
const COLONS: &[&str] = &[
    // One colon between two names.
    "<a b:c=''/>",
    "<a _:_=\"\"/>",
    "<a B-1.:c_2 = 'x'></a>",
    "<a b:c='' d='' e:f='' g=''/>",
    "<a xmlns:xsi='x' xsi:schemaLocation='y z'/>",
    "<a><b c:d='&lt;'/></a>",
    // No name after it.
    "<a b:=''/>",
    "<a b: c=''/>",
    "<a b:\t=''/>",
    "<a b:1=''/>",
    "<a b:-c=''/>",
    "<a b:.c=''/>",
    "<a b:''/>",
    "<a b:\"\"/>",
    "<a b:/>",
    "<a b:>",
    "<a b:<",
    "<a b:&amp;=''/>",
    "<a b:ä=''/>",
    "<a b:\u{1}",
    "<a b:",
    // A second one.
    "<a b::c=''/>",
    "<a b:c:d=''/>",
    "<a b:c:",
    "<a b:c:=''/>",
    "<a b:c :d=''/>",
    // No name before it; blanks before it.
    "<a :b=''/>",
    "<a :",
    "<a ::",
    "<a:b=''/>",
    "<a b :c=''/>",
    "<a b: :c=''/>",
    "<a b=:''/>",
    // In an element's name, and in an end tag.
    "<a:b c=''/>",
    "<a:b:c/>",
    "<a:",
    "<a><b:c/></a>",
    "<a><:b/></a>",
    "<a></a:b>",
    "<a></:a>",
    "<a></a:>",
    "<a b:c=''></a:b>",
    "<a b:c=''></b:c>",
    // Full names: the same, and others that begin or end alike.
    "<a b:c='' b:c=''/>",
    "<a b:c='' b:c =''/>",
    "<a b:c='' b:c",
    "<a b:c='' b:c:",
    "<a b:c='' b:cc=''/>",
    "<a b:cc='' b:c=''/>",
    "<a b:c='' b:d=''/>",
    "<a b:c='' d:c=''/>",
    "<a b='' b:c=''/>",
    "<a b:c='' b=''/>",
    "<a b='' b:b=''/>",
    "<a b:c='' c=''/>",
    "<a b='' b:",
    "<a b='' b:=''/>",
    "<a b='' c='' d='' b:c=''/>",
    "<a b='' c:d='' e='' c:d=''/>",
    "<a b:c=''><d b:c=''/></a>",
    // Four, and a fifth.
    "<a b:c='' d:e='' f:g='' h:i=''/>",
    "<a b:c='' d:e='' f:g='' h:i='' j:k=''/>",
    "<a b:c='' d='' e='' f='' b:c=''/>",
    "<a xmlns='' xmlns:xsi='' xsi:schemaLocation='' b='' c=''/>",
    "<a b='' c='' d='' e='' :f=''/>",
];

/// An end tag stops at the first byte that differs from the open name.
const END_TAGS: &[&str] = &[
    "<a></b>", "<a></ab>", "<ab></a>", "<ab></ac>", "<ab></abc>", "<ab></ab >", "<ab></ab\t\n>", "<ab></ ab>",
    "<ab></ab/>", "<ab>< /ab>", "<ab></>", "<ab></ab", "<ab></AB>", "<a><b></a></b>", "<a><bc></bc></b>",
];

/// "Text is XML 1.0 characters without `<` and `]]>`".
const TEXTS: &[&str] = &[
    "<a>x</a>", "<a> x \r\n\t</a>", "<a>></a>", "<a>\"'</a>", "<a>]]></a>", "<a>]]]></a>", "<a>]]]]></a>",
    "<a>] ]></a>", "<a>]></a>", "<a>]]</a>", "<a>]] ></a>", "<a>]]&gt;</a>", "<a>]&amp;]></a>", "<a>]]<b/>></a>",
    "<a>]<b/>]></a>", "<a><b>]]</b>></a>", "<a>]]>", "<a>x]]>y]]>z</a>", "<a><![CDATA[x]]></a>", "<a><!-- x --></a>",
    "<a><?x?></a>", "<a><</a>", "<a>a<b</a>",
];

/// "`&` only as `&amp; &lt; &gt; &quot; &apos;`".
const ENTITIES: &[&str] = &[
    "<a>&amp;&lt;&gt;&quot;&apos;</a>", "<a>&amp;lt;</a>", "<a>&</a>", "<a>& amp;</a>", "<a>&;</a>", "<a>&a</a>",
    "<a>&am</a>", "<a>&amp</a>", "<a>&ap</a>", "<a>&ampx;</a>", "<a>&apo;</a>", "<a>&AMP;</a>", "<a>&l;</a>",
    "<a>&lt</a>", "<a>&ltt;</a>", "<a>&g</a>", "<a>&gr;</a>", "<a>&q</a>", "<a>&quo;</a>", "<a>&quota;</a>",
    "<a>&nbsp;</a>", "<a>&#38;</a>", "<a>&#x26;</a>", "<a>&&amp;</a>", "<a>&amp;&",
];

/// "one element, blanks", and nothing behind them.
const AFTER: &[&str] = &[
    "<a/> \t\r\n", "<a/>x", "<a/>\n x", "<a/><b/>", "<a/><", "<a/></a>", "<a></a></a>", "<a/>\u{0}", "<a/>\u{a0}",
    "<a/>&amp;", "<a/>>", "\r\n<a/>",
];

/// Texts that are not UTF-8. There too the place is the longest beginning of a house XML text.
const BYTES: &[&[u8]] = &[
    b"\x00", b"\xff", b"<\xff", b"<a\x80/>", b"<a>\x80</a>", b"<a>\xc0\xaf</a>", b"<a>\xc1\xbf</a>", b"<a>\xc2</a>",
    b"<a>\xc2\x41</a>", b"<a>\xc2\xc2\xa0</a>", b"<a>\xdf\xbf</a>", b"<a>\xe0\x9f\xbf</a>", b"<a>\xe0\xa0</a>",
    b"<a>\xe2\x82</a>", b"<a>\xe2\x82\xac\xac</a>", b"<a>\xed\x9f\xbf\xed\xa0\x80</a>", b"<a>\xed\xbf\xbf</a>",
    b"<a>\xef\xbf</a>", b"<a>\xef\xbf\xbe</a>", b"<a>\xef\xbf\xc0</a>", b"<a>\xef\xbe\xbf\xef\xbf\xbd</a>",
    b"<a>\xf0\x8f\xbf\xbf</a>", b"<a>\xf0\x90\x80</a>", b"<a>\xf0\x90\x80\x80</a>",
    b"<a>\xf0\x9f\xbf\xbe\xf0\x9f\xbf\xbf</a>", b"<a>\xf4\x8f\xbf\xbf</a>", b"<a>\xf4\x90\x80\x80</a>",
    b"<a>\xf5\x80\x80\x80</a>", b"<a>\xf8\x88\x80\x80\x80</a>", b"<a b='\xe2\x82'/>", b"<a b='\xed\xa0\x80'/>",
    b"<a b='\xef\xbf\xbf'/>", b"<a b='\xf4\x8f\xbf\xbf'/>", b"<a b='\xc3", b"<a/>\xc2\xa0", b"<a>]]\xc3\xa4></a>",
    b"\xef\xbb\xbf<a/>",
];

/// Characters at the edges of XML 1.0's ranges, in text and in an attribute value.
fn characters() -> Vec<Vec<u8>> {
    let edges = [
        '\u{0}', '\u{8}', '\t', '\n', '\u{b}', '\u{c}', '\r', '\u{e}', '\u{1f}', ' ', '\u{7e}', '\u{7f}', '\u{80}',
        '\u{85}', '\u{9f}', '\u{a0}', '\u{7ff}', '\u{800}', '\u{d7ff}', '\u{e000}', '\u{fffd}', '\u{fffe}', '\u{ffff}',
        '\u{10000}', '\u{1fffe}', '\u{10ffff}',
    ];
    let texts = edges.iter().flat_map(|c| [format!("<a>{c}</a>"), format!("<a b=\"{c}\"/>")]);
    texts.map(String::into_bytes).collect()
}

/// "Nesting is at most 16, the root being 1."
fn levels() -> Vec<Vec<u8>> {
    let open = |levels: usize| "<a>".repeat(levels);
    let close = |levels: usize| "</a>".repeat(levels);
    let texts = [
        open(15) + "<a/>" + &close(15),
        open(16) + &close(16),
        open(16) + "x" + &close(16),
        open(16) + "<a/>" + &close(16),
        open(16) + "<",
        open(16) + "</a><a/>" + &close(15),
        open(17) + &close(17),
        open(40),
        open(16) + &close(17),
        open(15) + "<a/><a/><a></a>" + &close(15),
    ];
    texts.into_iter().map(String::into_bytes).collect()
}
