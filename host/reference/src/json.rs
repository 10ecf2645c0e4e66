//! As much of JSON as the vectors have.
#[derive(Debug)]
pub enum Json {
    Truth(bool),
    Number(usize),
    Text(String),
    List(Vec<Json>),
    Record(Vec<(String, Json)>),
}

impl Json {
    pub fn read(text: &str) -> Json {
        let mut rest = text.as_bytes();
        one(&mut rest)
    }

    pub fn get(&self, key: &str) -> &Json {
        let Json::Record(fields) = self else { panic!("no record") };
        &fields.iter().find(|(k, _)| k == key).expect(key).1
    }

    pub fn has(&self, key: &str) -> bool {
        matches!(self, Json::Record(fields) if fields.iter().any(|(k, _)| k == key))
    }

    pub fn list(&self) -> &[Json] {
        let Json::List(l) = self else { panic!("no list") };
        l
    }

    pub fn number(&self) -> usize {
        let Json::Number(n) = self else { panic!("no number") };
        *n
    }

    pub fn text(&self) -> &str {
        let Json::Text(t) = self else { panic!("no text") };
        t
    }

    /// A text as bytes, one for each character.
    pub fn bytes(&self) -> Vec<u8> {
        self.text().chars().map(|c| u8::try_from(c).expect("a byte")).collect()
    }

    pub fn truth(&self) -> bool {
        let Json::Truth(t) = self else { panic!("no truth") };
        *t
    }

    /// Words, of which `[w, n]` is n times w.
    pub fn packed(&self) -> Vec<u16> {
        let one = |w: &Json| match w {
            Json::List(l) => vec![l[0].number() as u16; l[1].number()],
            w => vec![w.number() as u16],
        };
        self.list().iter().flat_map(one).collect()
    }

    pub fn words(&self) -> Vec<u16> {
        self.list().iter().map(|w| w.number() as u16).collect()
    }
}

fn skip(rest: &mut &[u8]) {
    while matches!(rest.first(), Some(b' ' | b'\n' | b',' | b':')) {
        *rest = &rest[1..];
    }
}

fn one(rest: &mut &[u8]) -> Json {
    skip(rest);
    match rest[0] {
        b'[' => {
            *rest = &rest[1..];
            let mut l = vec![];
            loop {
                skip(rest);
                if rest[0] == b']' {
                    *rest = &rest[1..];
                    return Json::List(l);
                }
                l.push(one(rest));
            }
        }
        b'{' => {
            *rest = &rest[1..];
            let mut l = vec![];
            loop {
                skip(rest);
                if rest[0] == b'}' {
                    *rest = &rest[1..];
                    return Json::Record(l);
                }
                let key = one(rest).text().to_string();
                l.push((key, one(rest)));
            }
        }
        b'"' => {
            let n = rest[1..].iter().position(|b| *b == b'"').unwrap();
            let t = unescaped(std::str::from_utf8(&rest[1..1 + n]).unwrap());
            *rest = &rest[n + 2..];
            Json::Text(t)
        }
        b't' | b'f' => {
            let truth = rest[0] == b't';
            *rest = &rest[if truth { 4 } else { 5 }..];
            Json::Truth(truth)
        }
        _ => {
            let n = rest.iter().position(|b| !b.is_ascii_digit()).unwrap_or(rest.len());
            let v = std::str::from_utf8(&rest[..n]).unwrap().parse().unwrap();
            *rest = &rest[n..];
            Json::Number(v)
        }
    }
}

/// The escapes that the vectors have: no quote, no backslash.
fn unescaped(text: &str) -> String {
    let mut parts = text.split('\\');
    let mut out = parts.next().unwrap().to_string();
    for part in parts {
        let (escape, mut behind) = part.split_at(1);
        out.push(match escape {
            "n" => '\n',
            "r" => '\r',
            "t" => '\t',
            "u" => {
                let (digits, rest) = behind.split_at(4);
                behind = rest;
                char::from_u32(u32::from_str_radix(digits, 16).unwrap()).unwrap()
            }
            _ => panic!("no escape {escape}"),
        });
        out += behind;
    }
    out
}
