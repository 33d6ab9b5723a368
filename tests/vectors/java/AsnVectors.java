import java.math.BigInteger;
import java.security.MessageDigest;
import java.time.Instant;
import java.time.ZoneOffset;
import java.time.format.DateTimeFormatter;
import java.util.Arrays;
import java.util.Date;
import java.util.HexFormat;
import org.bouncycastle.asn1.ASN1Encodable;
import org.bouncycastle.asn1.ASN1Enumerated;
import org.bouncycastle.asn1.ASN1Integer;
import org.bouncycastle.asn1.ASN1ObjectIdentifier;
import org.bouncycastle.asn1.ASN1Set;
import org.bouncycastle.asn1.DERBitString;
import org.bouncycastle.asn1.DERNull;
import org.bouncycastle.asn1.DEROctetString;
import org.bouncycastle.asn1.DERSequence;
import org.bouncycastle.asn1.DERSet;
import org.bouncycastle.asn1.DERTaggedObject;
import org.bouncycastle.asn1.DERUTF8String;
import org.bouncycastle.asn1.crmf.AttributeTypeAndValue;
import org.bouncycastle.asn1.crmf.CertId;
import org.bouncycastle.asn1.crmf.CertReqMessages;
import org.bouncycastle.asn1.crmf.CertReqMsg;
import org.bouncycastle.asn1.crmf.CertRequest;
import org.bouncycastle.asn1.crmf.CertTemplate;
import org.bouncycastle.asn1.crmf.CertTemplateBuilder;
import org.bouncycastle.asn1.crmf.Controls;
import org.bouncycastle.asn1.crmf.OptionalValidity;
import org.bouncycastle.asn1.crmf.POPOSigningKey;
import org.bouncycastle.asn1.crmf.ProofOfPossession;
import org.bouncycastle.asn1.pkcs.Attribute;
import org.bouncycastle.asn1.pkcs.CertificationRequest;
import org.bouncycastle.asn1.pkcs.CertificationRequestInfo;
import org.bouncycastle.asn1.pkcs.PKCSObjectIdentifiers;
import org.bouncycastle.asn1.x500.X500Name;
import org.bouncycastle.asn1.x500.X500NameBuilder;
import org.bouncycastle.asn1.x500.style.BCStyle;
import org.bouncycastle.asn1.x509.AlgorithmIdentifier;
import org.bouncycastle.asn1.x509.AuthorityKeyIdentifier;
import org.bouncycastle.asn1.x509.BasicConstraints;
import org.bouncycastle.asn1.x509.Certificate;
import org.bouncycastle.asn1.x509.ExtendedKeyUsage;
import org.bouncycastle.asn1.x509.Extension;
import org.bouncycastle.asn1.x509.Extensions;
import org.bouncycastle.asn1.x509.ExtensionsGenerator;
import org.bouncycastle.asn1.x509.GeneralName;
import org.bouncycastle.asn1.x509.GeneralNames;
import org.bouncycastle.asn1.x509.KeyPurposeId;
import org.bouncycastle.asn1.x509.KeyUsage;
import org.bouncycastle.asn1.x509.SubjectKeyIdentifier;
import org.bouncycastle.asn1.x509.SubjectPublicKeyInfo;
import org.bouncycastle.asn1.x509.TBSCertificate;
import org.bouncycastle.asn1.x509.Time;
import org.bouncycastle.asn1.x509.V3TBSCertificateGenerator;
import org.bouncycastle.crypto.params.Ed25519PrivateKeyParameters;
import org.bouncycastle.crypto.signers.Ed25519Signer;

/**
 * Prints names, times, keys, extensions, certificates and certificate requests that Bouncy Castle writes.
 *
 * <p>A record is a line in brackets and then lines of a name, a blank and a value; octets are hexadecimal, whole
 * elements unless the name says content. Signatures are Ed25519 under a fixed key, so each run prints the same.
 */
public final class AsnVectors {
    private static final Ed25519PrivateKeyParameters SECRET = new Ed25519PrivateKeyParameters(run(0x00, 32), 0);
    private static final AlgorithmIdentifier ED25519 = new AlgorithmIdentifier(new ASN1ObjectIdentifier("1.3.101.112"));
    private static final AlgorithmIdentifier HSS_LMS = new AlgorithmIdentifier(new ASN1ObjectIdentifier("1.2.840.113549.1.9.16.3.17"));
    private static final ASN1ObjectIdentifier OLD_CERT_ID = new ASN1ObjectIdentifier("1.3.6.1.5.5.7.5.1.5");

    public static void main(String[] words) throws Exception {
        System.out.println("# Bouncy Castle " + Certificate.class.getPackage().getImplementationVersion());
        printTimes();
        printNames();
        printKeys();
        printExtensions();
        printCertificates();
        printRequests();
        printTemplates();
    }

    // Times

    private static void printTimes() {
        DateTimeFormatter long4 = DateTimeFormatter.ofPattern("uuuuMMddHHmmss'Z'").withZone(ZoneOffset.UTC);
        DateTimeFormatter short2 = DateTimeFormatter.ofPattern("uuMMddHHmmss'Z'").withZone(ZoneOffset.UTC);
        long[] moments = {
            0, 1, 59, 60, 86_399, 86_400, 68_169_599, 68_169_600, 951_782_399, 951_782_400, 951_868_799, 951_868_800,
            1_700_000_000, 1_709_164_800, 1_731_535_999, 2_147_483_647, 2_147_483_648L, 2_524_607_999L, 2_524_608_000L, 4_107_542_399L,
            4_107_542_400L, 4_294_967_296L, 13_574_563_200L, 250_000_000_000L, 253_402_300_799L
        };
        for (long moment : moments) {
            begin("time " + moment);
            show("seconds", moment);
            show("generalized", long4.format(Instant.ofEpochSecond(moment)));
            if (moment < 2_524_608_000L) {
                show("utc", short2.format(Instant.ofEpochSecond(moment)));
            }
            show("in_a_certificate", time(moment));
        }
    }

    // Names

    private static void printNames() throws Exception {
        for (X500Name name : new X500Name[] {cn("Fleet CA"), cn("Fleet CA reply"), cn("device-1"), cn("G\u00e9r\u00e4t \u20ac"), fleet(), several(), new X500NameBuilder().build()}) {
            begin("name " + name);
            show("name", name);
        }
        begin("general names");
        show("other", new GeneralName(GeneralName.otherName, new DERSequence(new ASN1Encodable[] {
            new ASN1ObjectIdentifier("1.3.6.1.4.1.311.20.2.3"), new DERTaggedObject(true, 0, new DERUTF8String("dev@fleet"))})));
        show("rfc822", new GeneralName(GeneralName.rfc822Name, "device@fleet.example"));
        show("dns", new GeneralName(GeneralName.dNSName, "device.fleet.example"));
        show("directory", new GeneralName(cn("Fleet CA")));
        show("uri", new GeneralName(GeneralName.uniformResourceIdentifier, "urn:device:1"));
        show("ip", new GeneralName(GeneralName.iPAddress, "192.0.2.1"));
        show("registered", new GeneralName(GeneralName.registeredID, "1.2.3.4.5"));
    }

    private static X500Name cn(String text) {
        return new X500NameBuilder().addRDN(BCStyle.CN, text).build();
    }

    private static X500Name fleet() {
        return new X500NameBuilder().addRDN(BCStyle.C, "DE").addRDN(BCStyle.O, "Fleet").addRDN(BCStyle.CN, "device-1").build();
    }

    private static X500Name several() {
        return new X500NameBuilder().addMultiValuedRDN(new ASN1ObjectIdentifier[] {BCStyle.CN, BCStyle.SERIALNUMBER},
                new String[] {"device-1", "17"}).build();
    }

    // Algorithms and keys

    private static void printKeys() throws Exception {
        AlgorithmIdentifier sha256 = new AlgorithmIdentifier(new ASN1ObjectIdentifier("2.16.840.1.101.3.4.2.1"));
        begin("algorithms");
        show("ed25519", ED25519);
        show("hss_lms", HSS_LMS);
        show("sha256_absent", sha256);
        show("sha256_null", new AlgorithmIdentifier(sha256.getAlgorithm(), DERNull.INSTANCE));
        for (byte[] key : new byte[][] {SECRET.generatePublicKey().getEncoded(), run(0x40, 60)}) {
            SubjectPublicKeyInfo info = new SubjectPublicKeyInfo(key.length == 60 ? HSS_LMS : ED25519, key);
            begin("key of " + key.length + " octets");
            show("key", key);
            show("spki", info);
            show("sha256_first_20", Arrays.copyOf(MessageDigest.getInstance("SHA-256").digest(key), 20));
        }
    }

    // Extensions

    private static void printExtensions() throws Exception {
        byte[] id = run(0x90, 20);
        begin("extensions");
        show("ski", new Extension(Extension.subjectKeyIdentifier, false, new SubjectKeyIdentifier(id).getEncoded("DER")));
        show("aki", new Extension(Extension.authorityKeyIdentifier, false, new AuthorityKeyIdentifier(id).getEncoded("DER")));
        show("ca_true_critical", new Extension(Extension.basicConstraints, true, new BasicConstraints(true).getEncoded("DER")));
        show("ca_false", new Extension(Extension.basicConstraints, false, new BasicConstraints(false).getEncoded("DER")));
        show("ca_true_path_3", new Extension(Extension.basicConstraints, true, new BasicConstraints(3).getEncoded("DER")));
        show("digital_signature_critical", new Extension(Extension.keyUsage, true, new KeyUsage(KeyUsage.digitalSignature).getEncoded("DER")));
        show("key_cert_sign_critical", new Extension(Extension.keyUsage, true, new KeyUsage(KeyUsage.keyCertSign).getEncoded("DER")));
        show("decipher_only", new Extension(Extension.keyUsage, false, new KeyUsage(KeyUsage.decipherOnly | KeyUsage.keyAgreement).getEncoded("DER")));
        show("alt_name", alternatives());
        show("reason_4", new Extension(Extension.reasonCode, false, new ASN1Enumerated(4).getEncoded("DER")));
        show("reason_10", new Extension(Extension.reasonCode, false, new ASN1Enumerated(10).getEncoded("DER")));
        show("several", asked());
    }

    private static Extension alternatives() throws Exception {
        GeneralNames names = new GeneralNames(new GeneralName[] {
            new GeneralName(GeneralName.dNSName, "device.fleet.example"), new GeneralName(GeneralName.iPAddress, "192.0.2.1")});
        return new Extension(Extension.subjectAlternativeName, false, names.getEncoded("DER"));
    }

    private static Extensions asked() throws Exception {
        ExtensionsGenerator extensions = new ExtensionsGenerator();
        extensions.addExtension(Extension.keyUsage, true, new KeyUsage(KeyUsage.digitalSignature | KeyUsage.nonRepudiation));
        extensions.addExtension(alternatives());
        extensions.addExtension(Extension.extendedKeyUsage, false, new ExtendedKeyUsage(KeyPurposeId.id_kp_clientAuth));
        return extensions.generate();
    }

    // Certificates

    private static void printCertificates() throws Exception {
        printCertificate("root", BigInteger.ONE, cn("Fleet CA"), cn("Fleet CA"), 1_700_000_000L, 253_402_300_799L, asked());
        printCertificate("a year", BigInteger.valueOf(3), cn("Fleet CA"), fleet(), 1_700_000_000L, 1_731_535_999L, asked());
        printCertificate("past 2049", BigInteger.ONE.shiftLeft(64), cn("Fleet CA"), several(), 2_524_607_999L, 2_524_608_000L, asked());
        printCertificate("a serial of 20 octets", BigInteger.ONE.shiftLeft(158).subtract(BigInteger.ONE), cn("Fleet CA"), cn("device-1"), 0, 1,
                new Extensions(alternatives()));
        printCertificate("without extensions", BigInteger.valueOf(128), cn("Fleet CA"), cn("device-1"), 0, 1, null);
    }

    private static void printCertificate(String title, BigInteger serial, X500Name issuer, X500Name subject, long from, long to,
            Extensions extensions) throws Exception {
        V3TBSCertificateGenerator plan = new V3TBSCertificateGenerator();
        SubjectPublicKeyInfo key = new SubjectPublicKeyInfo(ED25519, SECRET.generatePublicKey().getEncoded());
        plan.setSerialNumber(new ASN1Integer(serial));
        plan.setSignature(ED25519);
        plan.setIssuer(issuer);
        plan.setSubject(subject);
        plan.setStartDate(time(from));
        plan.setEndDate(time(to));
        plan.setSubjectPublicKeyInfo(key);
        if (extensions != null) {
            plan.setExtensions(extensions);
        }
        TBSCertificate tbs = plan.generateTBSCertificate();
        byte[] signature = sign(tbs.getEncoded("DER"));
        begin("certificate, " + title);
        show("serial_content", serial.toByteArray());
        show("algorithm", ED25519);
        show("issuer", issuer);
        show("not_before", from);
        show("not_after", to);
        show("subject", subject);
        show("spki", key);
        show("extensions", extensions == null ? new byte[0] : extensions.getEncoded("DER"));
        show("tbs", tbs);
        show("signature_bits", signature);
        show("certificate", new DERSequence(new ASN1Encodable[] {tbs, ED25519, new DERBitString(signature)}));
    }

    // PKCS #10

    private static void printRequests() throws Exception {
        Attribute asked = new Attribute(PKCSObjectIdentifiers.pkcs_9_at_extensionRequest, new DERSet(asked()));
        Attribute other = new Attribute(PKCSObjectIdentifiers.pkcs_9_at_challengePassword, new DERSet(new DERUTF8String("password")));
        printRequest("without attributes", new DERSet());
        printRequest("with extensionRequest", new DERSet(asked));
        printRequest("with extensionRequest and another attribute", new DERSet(new ASN1Encodable[] {other, asked}));
        printRequest("with two extensionRequests, which is refused", new DERSet(new ASN1Encodable[] {asked, asked}));
    }

    private static void printRequest(String title, ASN1Set attributes) throws Exception {
        SubjectPublicKeyInfo key = new SubjectPublicKeyInfo(ED25519, SECRET.generatePublicKey().getEncoded());
        CertificationRequestInfo info = new CertificationRequestInfo(fleet(), key, attributes);
        byte[] signature = sign(info.getEncoded("DER"));
        begin("PKCS #10, " + title);
        show("subject", fleet());
        show("spki", key);
        show("info", info);
        show("signature_bits", signature);
        show("request", new CertificationRequest(info, ED25519, new DERBitString(signature)));
    }

    // CRMF

    private static void printTemplates() throws Exception {
        SubjectPublicKeyInfo key = new SubjectPublicKeyInfo(HSS_LMS, run(0x40, 60));
        CertTemplate least = new CertTemplateBuilder().setSubject(fleet()).setPublicKey(key).build();
        CertTemplate most = new CertTemplateBuilder().setVersion(2).setSerialNumber(new ASN1Integer(7)).setSigningAlg(HSS_LMS)
                .setIssuer(cn("Fleet CA")).setValidity(new OptionalValidity(time(0), time(2_524_608_000L))).setSubject(fleet())
                .setPublicKey(key).setIssuerUID(new DERBitString(run(1, 3))).setSubjectUID(new DERBitString(run(4, 3)))
                .setExtensions(asked()).build();
        ProofOfPossession vouched = new ProofOfPossession();
        Controls old = new Controls(new AttributeTypeAndValue(OLD_CERT_ID,
                new CertId(new GeneralName(cn("Fleet CA")), BigInteger.valueOf(3))));
        printRequest("signed", new CertRequest(0, least, null), null);
        printRequest("signed, every field of the template", new CertRequest(0, most, null), null);
        printRequest("raVerified", new CertRequest(0, least, null), vouched);
        printRequest("signed, oldCertID", new CertRequest(0, least, old), null);
        printRequest("certReqId -1, raVerified", new CertRequest(new ASN1Integer(-1), least, null), vouched);
    }

    private static void printRequest(String title, CertRequest request, ProofOfPossession given) throws Exception {
        byte[] signature = sign(request.getEncoded("DER"));
        ProofOfPossession proof = given != null ? given
                : new ProofOfPossession(new POPOSigningKey(null, ED25519, new DERBitString(signature)));
        begin("CRMF, " + title);
        show("template", request.getCertTemplate());
        show("request", request);
        show("signature_bits", given != null ? new byte[0] : signature);
        show("messages", new CertReqMessages(new CertReqMsg(request, proof, null)));
    }

    // Printing

    private static Time time(long seconds) {
        return new Time(Date.from(Instant.ofEpochSecond(seconds)));
    }

    private static byte[] sign(byte[] text) {
        Ed25519Signer signer = new Ed25519Signer();
        signer.init(true, SECRET);
        signer.update(text, 0, text.length);
        return signer.generateSignature();
    }

    private static void begin(String title) {
        System.out.println();
        System.out.println("[" + title + "]");
    }

    private static void show(String name, ASN1Encodable value) {
        try {
            show(name, value.toASN1Primitive().getEncoded("DER"));
        } catch (java.io.IOException fault) {
            throw new IllegalStateException(fault);
        }
    }

    private static void show(String name, byte[] octets) {
        show(name, HexFormat.of().formatHex(octets));
    }

    private static void show(String name, long value) {
        show(name, Long.toString(value));
    }

    private static void show(String name, String value) {
        System.out.println((name + " " + value).stripTrailing());
    }

    private static byte[] run(int first, int count) {
        byte[] octets = new byte[count];
        for (int i = 0; i < count; i++) {
            octets[i] = (byte) (first + i);
        }
        return octets;
    }
}
