import java.math.BigInteger;
import java.util.HexFormat;
import org.bouncycastle.asn1.ASN1Encodable;
import org.bouncycastle.asn1.ASN1Encoding;
import org.bouncycastle.asn1.ASN1Enumerated;
import org.bouncycastle.asn1.ASN1Integer;
import org.bouncycastle.asn1.ASN1ObjectIdentifier;
import org.bouncycastle.asn1.DERSequence;
import org.bouncycastle.asn1.cmp.CertConfirmContent;
import org.bouncycastle.asn1.cmp.CertStatus;
import org.bouncycastle.asn1.cmp.PKIFailureInfo;
import org.bouncycastle.asn1.cmp.PKIFreeText;
import org.bouncycastle.asn1.cmp.PKIStatus;
import org.bouncycastle.asn1.cmp.PKIStatusInfo;
import org.bouncycastle.asn1.cmp.PollRepContent;
import org.bouncycastle.asn1.cmp.PollReqContent;
import org.bouncycastle.asn1.cmp.RevDetails;
import org.bouncycastle.asn1.cmp.RevRepContentBuilder;
import org.bouncycastle.asn1.cmp.RevReqContent;
import org.bouncycastle.asn1.crmf.CertId;
import org.bouncycastle.asn1.crmf.CertTemplate;
import org.bouncycastle.asn1.crmf.CertTemplateBuilder;
import org.bouncycastle.asn1.nist.NISTObjectIdentifiers;
import org.bouncycastle.asn1.x500.X500Name;
import org.bouncycastle.asn1.x500.X500NameBuilder;
import org.bouncycastle.asn1.x500.style.BCStyle;
import org.bouncycastle.asn1.x509.AlgorithmIdentifier;
import org.bouncycastle.asn1.x509.CRLReason;
import org.bouncycastle.asn1.x509.Extension;
import org.bouncycastle.asn1.x509.Extensions;
import org.bouncycastle.asn1.x509.GeneralName;

/** Prints bodies of CMP messages that Bouncy Castle writes: of polls, of revocations, and of confirmations. */
public final class BodyVectors {
    private static final X500Name AUTHORITY = new X500NameBuilder().addRDN(BCStyle.CN, "Fleet CA").build();

    public static void main(String[] words) throws Exception {
        System.out.println("# Bouncy Castle " + PollReqContent.class.getPackage().getImplementationVersion());
        show("authority", AUTHORITY);
        polls();
        revocations();
        confirmations();
    }

    private static void polls() throws Exception {
        show("poll of 0", new PollReqContent(BigInteger.ZERO));
        show("poll of -1", new PollReqContent(BigInteger.valueOf(-1)));
        show("poll of 0 and 300", new PollReqContent(new BigInteger[] {BigInteger.ZERO, BigInteger.valueOf(300)}));
        ASN1Integer none = new ASN1Integer(-1);
        show("poll answered, 60", new PollRepContent(none, new ASN1Integer(60)));
        show("poll answered, the greatest", new PollRepContent(none, new ASN1Integer(4_294_967_295L)));
        show("poll answered, with a reason", new PollRepContent(new ASN1Integer(0), new ASN1Integer(300),
                new PKIFreeText(new String[] {"held", "Ger\u00e4t"})));
    }

    private static void revocations() throws Exception {
        CertTemplate template = new CertTemplateBuilder().setIssuer(AUTHORITY).setSerialNumber(new ASN1Integer(3)).build();
        Extension reason = new Extension(Extension.reasonCode, false, CRLReason.lookup(CRLReason.keyCompromise).getEncoded(ASN1Encoding.DER));
        Extension time = new Extension(Extension.invalidityDate, false,
                new org.bouncycastle.asn1.DERGeneralizedTime("20231114221320Z").getEncoded(ASN1Encoding.DER));
        show("revocation, no extensions", new RevReqContent(new RevDetails(template)));
        show("revocation, keyCompromise", new RevReqContent(new RevDetails(template, new Extensions(reason))));
        show("revocation, of two", new RevReqContent(new RevDetails[] {
            new RevDetails(template, new Extensions(new Extension[] {time, reason})), new RevDetails(template)}));
        show("extensions, invalidityDate alone", new Extensions(time));
        for (int code = 0; code <= 11; code++) {
            Extension each = new Extension(Extension.reasonCode, false, new ASN1Enumerated(code).getEncoded(ASN1Encoding.DER));
            show("extensions, reasonCode " + code, new Extensions(each));
        }
        // Bouncy Castle's Extensions refuses what stands twice
        show("extensions, reasonCode twice", new DERSequence(new ASN1Encodable[] {reason, time, reason}));
        show("extensions, reasonCode an INTEGER", new Extensions(
                new Extension(Extension.reasonCode, false, new ASN1Integer(1).getEncoded(ASN1Encoding.DER))));
        PKIStatusInfo accepted = new PKIStatusInfo(PKIStatus.granted);
        PKIStatusInfo rejected = new PKIStatusInfo(PKIStatus.rejection, new PKIFreeText("certRevoked"),
                new PKIFailureInfo(PKIFailureInfo.certRevoked));
        show("revoked", new RevRepContentBuilder().add(accepted).build());
        show("revoked, not", new RevRepContentBuilder().add(rejected).build());
        show("revoked, with certificates", new RevRepContentBuilder()
                .add(accepted, new CertId(new GeneralName(AUTHORITY), BigInteger.valueOf(3)))
                .add(rejected, new CertId(new GeneralName(AUTHORITY), BigInteger.valueOf(4))).build());
    }

    private static void confirmations() throws Exception {
        byte[] hash = new byte[32];
        for (int i = 0; i < hash.length; i++) {
            hash[i] = (byte) (i + 64);
        }
        PKIStatusInfo accepted = new PKIStatusInfo(PKIStatus.granted);
        PKIStatusInfo rejected = new PKIStatusInfo(PKIStatus.rejection, new PKIFreeText("not mine"));
        AlgorithmIdentifier sha256 = new AlgorithmIdentifier(NISTObjectIdentifiers.id_sha256);
        show("confirmed, bare", list(new CertStatus(hash, BigInteger.ZERO)));
        show("confirmed, accepted", list(new CertStatus(hash, BigInteger.valueOf(-1), accepted)));
        show("confirmed, not", list(new CertStatus(hash, BigInteger.ZERO, rejected)));
        show("confirmed, with hashAlg", list(new CertStatus(hash, BigInteger.ZERO, accepted, sha256)));
        show("confirmed, hashAlg alone and another", list(
                new CertStatus(hash, BigInteger.ZERO, null, sha256), new CertStatus(hash, BigInteger.ONE, rejected, sha256)));
        show("confirmed, none", list());
    }

    private static CertConfirmContent list(CertStatus... entries) {
        return CertConfirmContent.getInstance(new DERSequence(entries));
    }

    private static void show(String name, ASN1Encodable value) throws Exception {
        System.out.println(name + ": " + HexFormat.of().formatHex(value.toASN1Primitive().getEncoded(ASN1Encoding.DER)));
    }
}
