#!/usr/bin/env ruby
# frozen_string_literal: true

# Checks cases with Ruby's webauthn: reads a JSON array and writes one line per case: "yes", "no: reason", or
# "none: reason" if the library itself fails before a verdict.
require 'base64'
require 'json'
require 'webauthn'

# Finds the root certificate of a case, whatever the authenticator.
RootFinder = Struct.new(:certificate) do
  def find(**)
    [certificate]
  end
end

def configure(test_case)
  root = test_case['root'] && OpenSSL::X509::Certificate.new(Base64.urlsafe_decode64(test_case['root']))
  WebAuthn.configure do |relying_party|
    relying_party.attestation_root_certificates_finders = root ? [RootFinder.new(root)] : []
    relying_party.origin = test_case['origin']
    relying_party.rp_id = test_case['rp_id']
    relying_party.rp_name = 'Example'
  end
end

def verify(test_case)
  if test_case['kind'] == 'registration'
    WebAuthn::Credential.from_create(test_case['credential']).verify(
      test_case['challenge'], user_verification: test_case['verification'] == 'required'
    )
  else
    WebAuthn::Credential.from_get(test_case['credential']).verify(
      test_case['challenge'], public_key: test_case['public_key'], sign_count: test_case['counter'],
                           user_verification: test_case['verification'] == 'required'
    )
  end
end

def judge(test_case)
  configure(test_case)
  verify(test_case)
  'yes'
rescue WebAuthn::Error => e
  "no: #{e.class}: #{e.message.gsub(/\s+/, ' ')}"
rescue StandardError => e
  "none: #{e.class}: #{e.message.gsub(/\s+/, ' ')}"
end

JSON.parse($stdin.read).each { |test_case| puts judge(test_case) }
