# Types the lines of docs/RELAYS.md, 'Sign-on', over Debian's Apache with a KDC of its own. It is
# part of followed.sh, and takes the port of its nginx for a while.
kill "$(cat /run/nginx.pid)"
while [ -e /run/nginx.pid ]; do sleep 0.1; done
cat > /etc/krb5.conf <<'K'
[libdefaults]
default_realm = EXAMPLE.COM
dns_canonicalize_hostname = false
rdns = false
[realms]
EXAMPLE.COM = {
    kdc = 127.0.0.1
}
[domain_realm]
desk.example = EXAMPLE.COM
K
printf '[realms]\nEXAMPLE.COM = {\n}\n' > /etc/krb5kdc/kdc.conf
kdb5_util create -s -r EXAMPLE.COM -P only-for-this-test > /dev/null
krb5kdc
for name in ann HTTP/desk.example; do
    kadmin.local -q "addprinc -pw only-for-this-test $name" > /dev/null 2>&1
done
kadmin.local -q 'ktadd -k /etc/desk/http.keytab HTTP/desk.example' > /dev/null
kinit ann <<< only-for-this-test > /dev/null
signed_on() {
    curl -s --cacert /etc/desk/front/ca.pem --resolve desk.example:8443:127.0.0.1 "$@" \
        https://desk.example:8443/
}
block '**Kerberos**' > kerberos.block
bash -eu kerberos.block > /dev/null
until_answers -k https://127.0.0.1:8443/
signed_on --negotiate -u : | sed -n 's,.*You are <strong>\([a-z]*\)</strong>.*,a ticket of \1,p'
signed_on | grep -o 'asks for a Kerberos ticket of a person of EXAMPLE.COM'
block '**OpenID Connect**' > openid.block
bash -eu openid.block > /dev/null
stat -c '%n %U %a' /etc/desk/openidc.secret
until_answers -k https://127.0.0.1:8443/
# (there is no provider here)
signed_on -o /dev/null -w 'without its provider: %{http_code}\n'
apache2ctl stop
while [ -e /run/apache2/apache2.pid ]; do sleep 0.1; done
nginx
