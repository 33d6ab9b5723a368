import java.math.BigInteger;
import java.util.Date;
import java.util.HexFormat;
import org.bouncycastle.asn1.ASN1Encodable;
import org.bouncycastle.asn1.ASN1EncodableVector;
import org.bouncycastle.asn1.ASN1Integer;
import org.bouncycastle.asn1.ASN1ObjectIdentifier;
import org.bouncycastle.asn1.DERBitString;
import org.bouncycastle.asn1.DERSequence;
import org.bouncycastle.asn1.DERUTF8String;
import org.bouncycastle.asn1.cmp.CMPCertificate;
import org.bouncycastle.asn1.cmp.CertOrEncCert;
import org.bouncycastle.asn1.cmp.CertRepMessage;
import org.bouncycastle.asn1.cmp.CertResponse;
import org.bouncycastle.asn1.cmp.CertifiedKeyPair;
import org.bouncycastle.asn1.cmp.ErrorMsgContent;
import org.bouncycastle.asn1.cmp.PKIFailureInfo;
import org.bouncycastle.asn1.cmp.PKIFreeText;
import org.bouncycastle.asn1.cmp.PKIStatus;
import org.bouncycastle.asn1.cmp.PKIStatusInfo;
import org.bouncycastle.asn1.x500.X500Name;
import org.bouncycastle.asn1.x500.X500NameBuilder;
import org.bouncycastle.asn1.x500.style.BCStyle;
import org.bouncycastle.asn1.x509.AlgorithmIdentifier;
import org.bouncycastle.asn1.x509.Certificate;
import org.bouncycastle.asn1.x509.SubjectPublicKeyInfo;
import org.bouncycastle.asn1.x509.Time;
import org.bouncycastle.asn1.x509.V3TBSCertificateGenerator;

/** Prints statuses, replies to certificate requests and error messages of CMP that Bouncy Castle writes. */
public final class ReplyVectors {
    private static final String[] NAMES = {
        "badAlg", "badMessageCheck", "badRequest", "badTime", "badCertId", "badDataFormat", "badPOP", "certRevoked",
        "certConfirmed", "wrongIntegrity", "badRecipientNonce", "badSenderNonce", "badCertTemplate", "signerNotTrusted",
        "transactionIdInUse", "unsupportedVersion", "notAuthorized", "systemUnavail", "systemFailure", "duplicateCertReq"};

    public static void main(String[] words) throws Exception {
        System.out.println("# Bouncy Castle " + PKIStatusInfo.class.getPackage().getImplementationVersion());
        for (String name : NAMES) {
            int bit = PKIFailureInfo.class.getField(name).getInt(null);
            show(name, new PKIFailureInfo(bit));
        }
        CMPCertificate root = certificate(1, "Fleet CA");
        CMPCertificate granted = certificate(3, "device-1");
        PKIStatusInfo accepted = new PKIStatusInfo(PKIStatus.granted);
        PKIStatusInfo denied = new PKIStatusInfo(PKIStatus.rejection, new PKIFreeText("denied"), new PKIFailureInfo(PKIFailureInfo.notAuthorized));
        PKIStatusInfo refused = new PKIStatusInfo(PKIStatus.rejection, new PKIFreeText("badPOP"), new PKIFailureInfo(PKIFailureInfo.badPOP));
        CertResponse with = new CertResponse(new ASN1Integer(0), accepted, new CertifiedKeyPair(new CertOrEncCert(granted)), null);
        CertResponse without = new CertResponse(new ASN1Integer(-1), denied);
        show("root", root);
        show("granted", granted);
        show("denied", denied);
        show("two reasons", new PKIStatusInfo(PKIStatus.rejection, null, new PKIFailureInfo(PKIFailureInfo.badTime | PKIFailureInfo.incorrectData)));
        show("rep with a certificate", new CertRepMessage(new CMPCertificate[] {root}, new CertResponse[] {with}));
        show("rep with waiting", new CertRepMessage(null, new CertResponse[] {new CertResponse(new ASN1Integer(0), new PKIStatusInfo(PKIStatus.waiting))}));
        show("rep with rejection", new CertRepMessage(null, new CertResponse[] {without}));
        show("rep of two", new CertRepMessage(null, new CertResponse[] {with, without}));
        show("error", new ErrorMsgContent(refused));
        show("error with all", new ErrorMsgContent(refused, new ASN1Integer(300),
            new PKIFreeText(new DERUTF8String[] {new DERUTF8String("key"), new DERUTF8String("G\u00e9r\u00e4t")})));
    }

    /** A certificate of Ed25519 whose key and signature are octets that count up. */
    private static CMPCertificate certificate(int serial, String subject) {
        AlgorithmIdentifier algorithm = new AlgorithmIdentifier(new ASN1ObjectIdentifier("1.3.101.112"));
        V3TBSCertificateGenerator made = new V3TBSCertificateGenerator();
        made.setSerialNumber(new ASN1Integer(BigInteger.valueOf(serial)));
        made.setSignature(algorithm);
        made.setIssuer(name("Fleet CA"));
        made.setStartDate(new Time(new Date(1_700_000_000_000L)));
        made.setEndDate(new Time(new Date(1_731_535_999_000L)));
        made.setSubject(name(subject));
        made.setSubjectPublicKeyInfo(new SubjectPublicKeyInfo(algorithm, run(serial, 4)));
        ASN1EncodableVector parts = new ASN1EncodableVector();
        parts.add(made.generateTBSCertificate());
        parts.add(algorithm);
        parts.add(new DERBitString(run(serial + 4, 4)));
        return new CMPCertificate(Certificate.getInstance(new DERSequence(parts)));
    }

    private static X500Name name(String common) {
        return new X500NameBuilder().addRDN(BCStyle.CN, common).build();
    }

    private static byte[] run(int first, int count) {
        byte[] octets = new byte[count];
        for (int i = 0; i < count; i++) {
            octets[i] = (byte) (first * 16 + i);
        }
        return octets;
    }

    private static void show(String name, ASN1Encodable value) throws Exception {
        System.out.println(name + ": " + HexFormat.of().formatHex(value.toASN1Primitive().getEncoded("DER")));
    }
}
