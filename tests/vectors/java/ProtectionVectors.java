import java.security.MessageDigest;
import java.util.Date;
import java.util.HexFormat;
import org.bouncycastle.asn1.ASN1Encodable;
import org.bouncycastle.asn1.ASN1Integer;
import org.bouncycastle.asn1.ASN1ObjectIdentifier;
import org.bouncycastle.asn1.DERBitString;
import org.bouncycastle.asn1.DERNull;
import org.bouncycastle.asn1.DEROctetString;
import org.bouncycastle.asn1.DERSequence;
import org.bouncycastle.asn1.cmp.CMPCertificate;
import org.bouncycastle.asn1.cmp.GenMsgContent;
import org.bouncycastle.asn1.cmp.InfoTypeAndValue;
import org.bouncycastle.asn1.cmp.PKIBody;
import org.bouncycastle.asn1.cmp.PKIConfirmContent;
import org.bouncycastle.asn1.cmp.PKIHeader;
import org.bouncycastle.asn1.cmp.PKIHeaderBuilder;
import org.bouncycastle.asn1.cmp.PKIMessage;
import org.bouncycastle.asn1.cmp.ProtectedPart;
import org.bouncycastle.asn1.pkcs.PBMAC1Params;
import org.bouncycastle.asn1.pkcs.PKCSObjectIdentifiers;
import org.bouncycastle.asn1.x500.RDN;
import org.bouncycastle.asn1.x500.X500Name;
import org.bouncycastle.asn1.x509.AlgorithmIdentifier;
import org.bouncycastle.asn1.x509.Certificate;
import org.bouncycastle.asn1.x509.GeneralName;
import org.bouncycastle.asn1.x509.SubjectPublicKeyInfo;
import org.bouncycastle.asn1.x509.Time;
import org.bouncycastle.asn1.x509.V3TBSCertificateGenerator;
import org.bouncycastle.crypto.AsymmetricCipherKeyPair;
import org.bouncycastle.crypto.digests.SHA256Digest;
import org.bouncycastle.crypto.generators.PKCS5S2ParametersGenerator;
import org.bouncycastle.crypto.macs.HMac;
import org.bouncycastle.pqc.crypto.lms.HSSKeyGenerationParameters;
import org.bouncycastle.pqc.crypto.lms.HSSKeyPairGenerator;
import org.bouncycastle.pqc.crypto.lms.HSSPublicKeyParameters;
import org.bouncycastle.pqc.crypto.lms.HSSSigner;
import org.bouncycastle.pqc.crypto.lms.LMOtsParameters;
import org.bouncycastle.pqc.crypto.lms.LMSParameters;
import org.bouncycastle.pqc.crypto.lms.LMSigParameters;

/** Prints CMP messages that Bouncy Castle protects: by PBMAC1, and by HSS/LMS with a certificate. */
public final class ProtectionVectors {
    private static final ASN1ObjectIdentifier HSS_LMS = new ASN1ObjectIdentifier("1.2.840.113549.1.9.16.3.17");
    private static final X500Name DEVICE = new X500Name("CN=device-1");
    private static final PKIBody BODY = new PKIBody(PKIBody.TYPE_GEN_MSG,
            new GenMsgContent(new InfoTypeAndValue(new ASN1ObjectIdentifier("1.3.6.1.5.5.7.4.17"))));

    public static void main(String[] words) throws Exception {
        System.out.println("# Bouncy Castle " + PKIMessage.class.getPackage().getImplementationVersion());
        show("body", BODY);
        byte[] salt = run(0x50, 16);
        PKIHeader maced = header(pbmac1(salt, 1000));
        show("mac", new PKIMessage(maced, BODY, new DERBitString(mac("secret-1".getBytes(), salt, 1000, part(maced)))));
        HSSKeyPairGenerator generator = new HSSKeyPairGenerator();
        LMSParameters set = new LMSParameters(LMSigParameters.lms_sha256_n32_h5, LMOtsParameters.sha256_n32_w8);
        generator.init(new HSSKeyGenerationParameters(new LMSParameters[] {set}, new Fixed(run(0, 32), run(0x80, 16))));
        AsymmetricCipherKeyPair pair = generator.generateKeyPair();
        System.out.println("public key: " + hex(((HSSPublicKeyParameters) pair.getPublic()).getEncoded()));
        HSSSigner signer = new HSSSigner();
        signer.init(true, pair.getPrivate());
        PKIHeader signed = header(new AlgorithmIdentifier(HSS_LMS));
        CMPCertificate certificate = certificate();
        show("certificate", certificate);
        byte[] message = new PKIMessage(signed, BODY, new DERBitString(signer.generateSignature(part(signed))),
                new CMPCertificate[] {certificate}).getEncoded("DER");
        System.out.println("signed: " + hex(message));
        System.out.println("SHA-256 of signed: " + hex(MessageDigest.getInstance("SHA-256").digest(message)));
        PKIHeader odd = header(new AlgorithmIdentifier(HSS_LMS, DERNull.INSTANCE));
        show("with parameters, its signature cut", new PKIMessage(odd, BODY, new DERBitString(run(0x70, 8))));
        show("plain", new PKIMessage(header(null), BODY));
        show("its protection left out", new PKIMessage(maced, BODY));
        for (int octets : new int[] {7, 64, 65}) {
            show("a salt of " + octets, small(run(0x50, octets), 1));
        }
        for (int rounds : new int[] {0, 1, 200_000, 200_001}) {
            show("rounds " + rounds, small(run(0x50, 8), rounds));
        }
    }

    /** A pkiconf between empty names. Where there are no rounds its MAC is that of one. */
    private static PKIMessage small(byte[] salt, int rounds) throws Exception {
        PKIBody body = new PKIBody(PKIBody.TYPE_CONFIRM, new PKIConfirmContent());
        GeneralName nobody = new GeneralName(new X500Name(new RDN[0]));
        PKIHeader header = new PKIHeaderBuilder(2, nobody, nobody).setProtectionAlg(pbmac1(salt, rounds)).build();
        byte[] part = new ProtectedPart(header, body).getEncoded("DER");
        return new PKIMessage(header, body, new DERBitString(mac("secret-1".getBytes(), salt, Math.max(rounds, 1), part)));
    }

    private static AlgorithmIdentifier pbmac1(byte[] salt, int rounds) {
        AlgorithmIdentifier hmac = new AlgorithmIdentifier(PKCSObjectIdentifiers.id_hmacWithSHA256, DERNull.INSTANCE);
        AlgorithmIdentifier derivation = new AlgorithmIdentifier(PKCSObjectIdentifiers.id_PBKDF2,
                new DERSequence(new ASN1Encodable[] {new DEROctetString(salt), new ASN1Integer(rounds), hmac}));
        return new AlgorithmIdentifier(PKCSObjectIdentifiers.id_PBMAC1, new PBMAC1Params(derivation, hmac));
    }

    private static PKIHeader header(AlgorithmIdentifier algorithm) {
        return new PKIHeaderBuilder(2, new GeneralName(DEVICE), new GeneralName(new X500Name("CN=Fleet CA")))
                .setProtectionAlg(algorithm).setSenderKID(run(0x10, 8)).setTransactionID(run(0x20, 16))
                .setSenderNonce(run(0x30, 16)).build();
    }

    private static byte[] part(PKIHeader header) throws Exception {
        return new ProtectedPart(header, BODY).getEncoded("DER");
    }

    private static byte[] mac(byte[] secret, byte[] salt, int rounds, byte[] text) {
        PKCS5S2ParametersGenerator generator = new PKCS5S2ParametersGenerator(new SHA256Digest());
        generator.init(secret, salt, rounds);
        HMac mac = new HMac(new SHA256Digest());
        mac.init(generator.generateDerivedMacParameters(256));
        mac.update(text, 0, text.length);
        byte[] value = new byte[32];
        mac.doFinal(value, 0);
        return value;
    }

    private static CMPCertificate certificate() throws Exception {
        V3TBSCertificateGenerator plan = new V3TBSCertificateGenerator();
        plan.setSerialNumber(new ASN1Integer(5));
        plan.setSignature(new AlgorithmIdentifier(HSS_LMS));
        plan.setIssuer(DEVICE);
        plan.setStartDate(new Time(new Date(1_700_000_000_000L)));
        plan.setEndDate(new Time(new Date(1_800_000_000_000L)));
        plan.setSubject(DEVICE);
        plan.setSubjectPublicKeyInfo(new SubjectPublicKeyInfo(new AlgorithmIdentifier(HSS_LMS), run(0x40, 16)));
        return new CMPCertificate(Certificate.getInstance(new DERSequence(new ASN1Encodable[] {
            plan.generateTBSCertificate(), new AlgorithmIdentifier(HSS_LMS), new DERBitString(run(0x30, 8))})));
    }

    private static byte[] run(int first, int count) {
        byte[] octets = new byte[count];
        for (int i = 0; i < count; i++) {
            octets[i] = (byte) (first + i);
        }
        return octets;
    }

    private static String hex(byte[] octets) {
        return HexFormat.of().formatHex(octets);
    }

    private static void show(String name, ASN1Encodable value) throws Exception {
        System.out.println(name + ": " + hex(value.toASN1Primitive().getEncoded("DER")));
    }
}
