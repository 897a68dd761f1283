#!/usr/bin/perl
# Checks cases with Perl's Authen::WebAuthn: reads a JSON array and writes one line per case, "yes" or "no: reason".
use strict;
use warnings;
use Authen::WebAuthn;
use JSON;
use MIME::Base64 qw(decode_base64url encode_base64);

# Returns a certificate as PEM. Versions newer than Debian 12's verify the chain of certificates.
sub make_pem {
    my $certificate = encode_base64( decode_base64url( $_[0] ) );
    return "-----BEGIN CERTIFICATE-----\n$certificate-----END CERTIFICATE-----\n";
}

$| = 1;
my $cases = decode_json( do { local $/; <STDIN> } );
for my $case (@$cases) {
    my $relying_party = Authen::WebAuthn->new( rp_id => $case->{rp_id}, origin => $case->{origin} );
    my $response      = $case->{credential}{response};
    eval {
        if ( $case->{kind} eq 'registration' ) {
            $relying_party->validate_registration(
                challenge_b64          => $case->{challenge},
                requested_uv           => $case->{verification},
                client_data_json_b64   => $response->{clientDataJSON},
                attestation_object_b64 => $response->{attestationObject},
                trust_anchors          => [ make_pem( $case->{root} ) ],
            );
        }
        else {
            $relying_party->validate_assertion(
                challenge_b64          => $case->{challenge},
                credential_pubkey_b64  => $case->{public_key},
                stored_sign_count      => $case->{counter},
                requested_uv           => $case->{verification},
                client_data_json_b64   => $response->{clientDataJSON},
                authenticator_data_b64 => $response->{authenticatorData},
                signature_b64          => $response->{signature},
            );
        }
    };
    print $@ ? 'no: ' . ( $@ =~ s/\s+/ /gr ) . "\n" : "yes\n";
}
