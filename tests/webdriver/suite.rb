#!/usr/bin/env ruby
# The same suite in Ruby: suite.rb URL PAGE. It prints for each test what it saw, as a line of JSON.
require "json"
require "selenium-webdriver"

KEY = "MIGHAgEAMBMGByqGSM49AgEGCCqGSM49AwEHBG0wawIBAQQg8_zMDQDYAxlU-Qhk1Dwkf0v18GZca1DMF3SaJ9HPdmShRANCAASNYX5lyVCOZLzF" \
      "ZzrIKmeZ2jwURmgsJYxGP__fWN_S-j5sN4tT15XEpN_7QZnt14YvI6uvAgO0uJEboFaZlOEB"
URL, PAGE = ARGV

options = Selenium::WebDriver::Options.chrome(args: ["--headless=new", "--no-sandbox", "--disable-dev-shm-usage"])
# On a busy machine, a command can take longer than the 60 seconds that the client waits by default.
client = Selenium::WebDriver::Remote::Http::Default.new(open_timeout: 600, read_timeout: 600)
DRIVER = Selenium::WebDriver.for(:remote, url: URL, capabilities: options, http_client: client)
DRIVER.manage.timeouts.script_timeout = 300

# Calls a function of the page.
def page(name, words = {})
  DRIVER.execute_async_script("#{name}(arguments[0]).then(arguments[1])", words)
end

# Adds an authenticator, by default one that verifies and has resident keys.
def add(words = {})
  given = { resident_key: true, user_verification: true, user_verified: true }.merge(words)
  $key = DRIVER.add_virtual_authenticator(Selenium::WebDriver::VirtualAuthenticatorOptions.new(**given))
end

def credential(resident: true, id: [1, 2, 3, 4])
  words = { id: id, rp_id: "localhost", private_key: Selenium::WebDriver::Credential.decode(KEY), sign_count: 3 }
  return Selenium::WebDriver::Credential.non_resident(**words) unless resident

  Selenium::WebDriver::Credential.resident(user_handle: "bob".bytes, **words)
end

def listed
  $key.credentials.map { |it| it.instance_variables.to_h { |name| [name.to_s, it.instance_variable_get(name)] } }
      .map { |it| [it["@user_handle"].to_s, it["@resident_credential"], it["@rp_id"]] }.sort_by(&:to_s)
end

# The name of the error with which a block ends.
def ended
  yield
  "done"
rescue StandardError => error
  error.class.name
end

TESTS = {
  "a U2F key" => -> { add(protocol: :u2f, resident_key: false, user_verification: false, user_verified: false); listed },
  "removed" => -> { add; $key.remove!; $key.valid? },
  "add a resident credential" => -> { add; $key.add_credential(credential); listed },
  "add another credential" => -> { add; $key.add_credential(credential(resident: false)); listed.length },
  "resident on a key without" => lambda {
    add(resident_key: false)
    ended { $key.add_credential(credential) }
  },
  "remove a credential" => lambda {
    add
    $key.add_credential(credential(resident: false))
    $key.add_credential(credential(resident: false, id: [5]))
    $key.remove_credential("BQ")
    $key.credentials.map(&:id)
  },
  "remove all" => -> { add; $key.add_credential(credential); $key.remove_all_credentials; listed },
  "remove an unknown one" => -> { add; ended { $key.remove_credential("BQ") } },
  "user verified" => lambda {
    add(user_verified: false)
    before = page("register", userVerification: "required")
    $key.user_verified = true
    [before, page("register", userVerification: "required")["flags"]]
  },
  "user not verified any more" => lambda {
    add
    made = page("register")
    $key.user_verified = false
    page("signIn", allow: [made["id"]], userVerification: "required")
  },
  "register" => -> { add; page("register").slice("flags", "attachment", "transports") },
  "register resident" => -> { add; page("register", residentKey: "required")["flags"].then { |it| [it, listed] } },
  "sign in" => lambda {
    add
    made = page("register")
    used = page("signIn", allow: [made["id"]])
    [used["id"] == made["id"], used["flags"], used["user"]]
  },
  "sign in without a list" => -> { add; page("register", residentKey: "required"); page("signIn")["user"] },
  "sign in with an added one" => -> { add; $key.add_credential(credential); page("signIn").slice("id", "user") },
  "sign in with an added one by its id" => lambda {
    add
    $key.add_credential(credential(resident: false))
    page("signIn", allow: ["AQIDBA"]).slice("id", "user")
  },
  "no credential" => -> { add; page("signIn") },
  "excluded" => -> { add; made = page("register"); page("register", exclude: [made["id"]]) },
  "a platform key" => lambda {
    add(transport: :internal)
    [page("isPlatform"), page("register", authenticatorAttachment: "platform").slice("attachment", "transports", "flags")]
  },
  "no verification" => lambda {
    add(user_verification: false, user_verified: false)
    [page("register", userVerification: "required"), page("register")["flags"]]
  },
  "after a reload" => lambda {
    add
    page("register", residentKey: "required")
    DRIVER.navigate.refresh
    page("signIn")["user"]
  },
  "after other pages" => lambda {
    add
    page("register", residentKey: "required")
    DRIVER.navigate.to("#{PAGE}?other")
    DRIVER.navigate.back
    page("signIn")["user"]
  }
}.freeze

begin
  TESTS.each do |name, test|
    DRIVER.navigate.to(PAGE)
    $key = nil
    saw = begin
      test.call
    rescue StandardError => error
      "#{error.class}: #{error.message.lines.first}"
    end
    puts JSON.generate([name, saw])
    $stdout.flush
    $key.remove! if $key&.valid?
  end
ensure
  DRIVER.quit
end
