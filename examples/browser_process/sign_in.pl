#!/usr/bin/perl
# Tests a Perl service that uses Authen::WebAuthn with a `hidlog browser` process. Run it:
#
#     sign_in.pl hidlog browser
use strict;
use warnings;
use Authen::WebAuthn;
use IPC::Open2;
use JSON;

my $origin = 'https://example.com';
my $browser = open2( my $results, my $commands, @ARGV, '--origin', $origin );
$commands->autoflush(1);

# Sends a command and returns its result.
sub call {
    my ( $command, $argument ) = @_;
    print $commands encode_json( { $command => $argument } ), "\n";
    return decode_json( scalar <$results> );
}

my $service = Authen::WebAuthn->new( rp_id => 'example.com', origin => $origin );
my $challenge = 'AAECAwQFBgcICQoLDA0ODw';
my $made = call(
    create => {
        rp               => { id => 'example.com', name => 'Example' },
        user             => { id => 'YW5u', name => 'ann', displayName => 'Ann' },
        challenge        => $challenge,
        pubKeyCredParams => [ { type => 'public-key', alg => -7 } ],
    }
)->{value};
my $registered = $service->validate_registration(
    challenge_b64          => $challenge,
    requested_uv           => 'discouraged',
    client_data_json_b64   => $made->{response}{clientDataJSON},
    attestation_object_b64 => $made->{response}{attestationObject},
);
die 'different credential ID' if $registered->{credential_id} ne $made->{id};

my $options = { challenge => $challenge, rpId => 'example.com',
    allowCredentials => [ { type => 'public-key', id => $made->{id} } ] };
my $used = call( get => $options )->{value}{response};
$service->validate_assertion(
    challenge_b64          => $challenge,
    credential_pubkey_b64  => $registered->{credential_pubkey},
    stored_sign_count      => $registered->{signature_count},
    requested_uv           => 'discouraged',
    client_data_json_b64   => $used->{clientDataJSON},
    authenticator_data_b64 => $used->{authenticatorData},
    signature_b64          => $used->{signature},
);
call( setPresence => 'denied' );
die 'expected NotAllowedError' if call( get => $options )->{error} ne 'NotAllowedError';
close $commands;
waitpid $browser, 0;
print "ok\n";
