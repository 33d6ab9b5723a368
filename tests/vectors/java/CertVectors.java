import java.math.BigInteger;
import java.security.MessageDigest;
import java.time.Instant;
import java.util.Arrays;
import java.util.Date;
import java.util.HexFormat;
import org.bouncycastle.asn1.ASN1Encodable;
import org.bouncycastle.asn1.ASN1Integer;
import org.bouncycastle.asn1.ASN1ObjectIdentifier;
import org.bouncycastle.asn1.DERBitString;
import org.bouncycastle.asn1.DERSequence;
import org.bouncycastle.asn1.x500.X500Name;
import org.bouncycastle.asn1.x500.X500NameBuilder;
import org.bouncycastle.asn1.x500.style.BCStyle;
import org.bouncycastle.asn1.x509.AlgorithmIdentifier;
import org.bouncycastle.asn1.x509.AuthorityKeyIdentifier;
import org.bouncycastle.asn1.x509.BasicConstraints;
import org.bouncycastle.asn1.x509.Certificate;
import org.bouncycastle.asn1.x509.Extension;
import org.bouncycastle.asn1.x509.ExtensionsGenerator;
import org.bouncycastle.asn1.x509.GeneralName;
import org.bouncycastle.asn1.x509.GeneralNames;
import org.bouncycastle.asn1.x509.KeyUsage;
import org.bouncycastle.asn1.x509.SubjectKeyIdentifier;
import org.bouncycastle.asn1.x509.SubjectPublicKeyInfo;
import org.bouncycastle.asn1.x509.TBSCertificate;
import org.bouncycastle.asn1.x509.Time;
import org.bouncycastle.asn1.x509.V3TBSCertificateGenerator;

/**
 * Prints the certificates that the authority makes, as Bouncy Castle writes them: of its root, of its replies, and one that it
 * grants. Keys and signatures are octets that count up; no signature holds.
 */
public final class CertVectors {
    private static final AlgorithmIdentifier HSS_LMS =
            new AlgorithmIdentifier(new ASN1ObjectIdentifier("1.2.840.113549.1.9.16.3.17"));
    private static final byte[] ISSUE_KEY = run(0x40, 60);
    private static final byte[] REPLY_KEY = run(0x80, 60);

    public static void main(String[] words) throws Exception {
        System.out.println("# Bouncy Castle " + Certificate.class.getPackage().getImplementationVersion());
        ExtensionsGenerator root = new ExtensionsGenerator();
        root.addExtension(Extension.subjectKeyIdentifier, false, new SubjectKeyIdentifier(id(ISSUE_KEY)));
        root.addExtension(Extension.basicConstraints, true, new BasicConstraints(true));
        root.addExtension(Extension.keyUsage, true, new KeyUsage(KeyUsage.keyCertSign));
        print("root", 1, cn("Fleet CA"), 1_700_000_000L, 253_402_300_799L, ISSUE_KEY, root);
        ExtensionsGenerator reply = issued(REPLY_KEY);
        print("reply", 2, cn("Fleet CA reply"), 1_700_000_000L, 253_402_300_799L, REPLY_KEY, reply);
        ExtensionsGenerator granted = issued(REPLY_KEY);
        granted.addExtension(Extension.subjectAlternativeName, false,
                new GeneralNames(new GeneralName(GeneralName.dNSName, "device.fleet.example")));
        print("granted", 128, cn("device-1"), 1_700_000_000L, 1_700_000_000L + 86_400L * 365 - 1, REPLY_KEY, granted);
    }

    private static ExtensionsGenerator issued(byte[] key) throws Exception {
        ExtensionsGenerator extensions = new ExtensionsGenerator();
        extensions.addExtension(Extension.authorityKeyIdentifier, false, new AuthorityKeyIdentifier(id(ISSUE_KEY)));
        extensions.addExtension(Extension.subjectKeyIdentifier, false, new SubjectKeyIdentifier(id(key)));
        extensions.addExtension(Extension.keyUsage, true, new KeyUsage(KeyUsage.digitalSignature));
        return extensions;
    }

    private static void print(String title, long serial, X500Name subject, long from, long to, byte[] key,
            ExtensionsGenerator extensions) throws Exception {
        V3TBSCertificateGenerator plan = new V3TBSCertificateGenerator();
        SubjectPublicKeyInfo info = new SubjectPublicKeyInfo(HSS_LMS, key);
        plan.setSerialNumber(new ASN1Integer(BigInteger.valueOf(serial)));
        plan.setSignature(HSS_LMS);
        plan.setIssuer(cn("Fleet CA"));
        plan.setSubject(subject);
        plan.setStartDate(new Time(Date.from(Instant.ofEpochSecond(from))));
        plan.setEndDate(new Time(Date.from(Instant.ofEpochSecond(to))));
        plan.setSubjectPublicKeyInfo(info);
        plan.setExtensions(extensions.generate());
        TBSCertificate tbs = plan.generateTBSCertificate();
        System.out.println();
        System.out.println("[certificate, " + title + "]");
        show("serial", new ASN1Integer(BigInteger.valueOf(serial)));
        show("issuer", cn("Fleet CA"));
        System.out.println("not_before " + from);
        System.out.println("not_after " + to);
        show("subject", subject);
        show("spki", info);
        show("extensions", extensions.generate());
        show("tbs", tbs);
        show("certificate", new DERSequence(new ASN1Encodable[] {tbs, HSS_LMS, new DERBitString(run(0, 32))}));
    }

    private static X500Name cn(String text) {
        return new X500NameBuilder().addRDN(BCStyle.CN, text).build();
    }

    private static byte[] id(byte[] key) throws Exception {
        return Arrays.copyOf(MessageDigest.getInstance("SHA-256").digest(key), 20);
    }

    private static byte[] run(int first, int count) {
        byte[] octets = new byte[count];
        for (int i = 0; i < count; i++) {
            octets[i] = (byte) (first + i);
        }
        return octets;
    }

    private static void show(String name, ASN1Encodable value) throws Exception {
        System.out.println(name + " " + HexFormat.of().formatHex(value.toASN1Primitive().getEncoded("DER")));
    }
}
