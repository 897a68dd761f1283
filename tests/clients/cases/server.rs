//! Makes the calls of navigator.credentials that tests/clients/browser_cases.py writes to standard input, with a
//! Browser of the Rust crate, and prints the results. browser_cases.py documents the protocol.
use hidlog::{Browser, Error, Presence, SecurityKey, Verification};
use std::io::{stdin, BufRead};

/// Returns a browser whose key has the options that browser_cases.py sent by name.
fn new_browser(options: &[&str]) -> Result<Browser, String> {
    let mut key = SecurityKey::new().map_err(|error| error.to_string())?;
    for option in options {
        match *option {
            "verified" => key.options.verification = Verification::Verified,
            "failed" => key.options.verification = Verification::Failed,
            "platform" => key.options.platform = true,
            "no resident keys" => key.options.no_resident_keys = true,
            "backup eligible" => key.options.backup_eligible = true,
            "backed up" => key.options.backed_up = true,
            "no attestation" => key.options.no_attestation = true,
            _ => return Err(format!("unknown option of the key: {option:?}")),
        }
    }
    Ok(Browser::new("http://localhost:5000", key))
}

/// Calls the browser's method (create or get), and returns a line with the result.
fn make_call(browser: &mut Browser, method: &str, options: &str) -> String {
    let made = if method == "create" { browser.create_json(options) } else { browser.get_json(options) };
    match made {
        Ok(json) => format!("made\t{json}"),
        Err(Error::Dom(name, text)) => format!("error\t{name}\t{text}"),
        Err(other) => format!("failed\t{other}"),
    }
}

fn main() {
    let mut browser = new_browser(&[]).expect("a key");
    for line in stdin().lock().lines() {
        let line = line.expect("a line in UTF-8");
        let words: Vec<&str> = line.split('\t').collect();
        let result = match words[0] {
            "key" => match new_browser(&words[1..]) {
                Ok(made) => {
                    browser = made;
                    "done".into()
                }
                Err(text) => format!("failed\t{text}"),
            },
            "fail" => {
                browser.key.options.verification = Verification::Failed;
                "done".into()
            }
            "recording" => {
                let log = &browser.key.recordings()[0].log;
                format!("done\t{}", log.iter().map(|byte| format!("{byte:02x}")).collect::<String>())
            }
            method => {
                browser.mediation = words[1].into();
                browser.key.presence = vec![if words[2] == "granted" { Presence::Granted } else { Presence::Denied }];
                make_call(&mut browser, method, words[3])
            }
        };
        println!("{result}");
    }
}
